/** Times of the day: immutable objects, overloads, static factories, comparisons. */
public final class Clock implements Comparable<Clock> {
    public static final Clock MIDNIGHT = new Clock(0, 0);
    public static final Clock NOON = of("12:00");
    private static int made;
    private final int minutes;

    private Clock(int minutes) {
        this.minutes = Math.floorMod(minutes, 24 * 60);
        made++;
    }

    public Clock(int hour, int minute) {
        this(hour * 60 + minute);
    }

    public Clock(Clock other) {
        this(other.minutes);
    }

    public static Clock of(String text) {
        int colon = text.indexOf(':');
        if (colon < 0) {
            return new Clock(Integer.parseInt(text), 0);
        }
        return new Clock(Integer.parseInt(text.substring(0, colon)), Integer.parseInt(text.substring(colon + 1)));
    }

    public Clock plus(int minutes) {
        return new Clock(this.minutes + minutes);
    }

    public Clock plus(int hours, int minutes) {
        return plus(60 * hours + minutes);
    }

    public Clock plus(Clock other) {
        return plus(other.minutes);
    }

    public boolean isBefore(Clock other) {
        return compareTo(other) < 0;
    }

    @Override
    public int compareTo(Clock other) {
        return Integer.compare(minutes, other.minutes);
    }

    @Override
    public boolean equals(Object o) {
        return o instanceof Clock c && c.minutes == minutes;
    }

    @Override
    public int hashCode() {
        return minutes;
    }

    private static String two(int n) {
        return (n < 10 ? "0" : "") + n;
    }

    @Override
    public String toString() {
        return two(minutes / 60) + ":" + two(minutes % 60);
    }

    static Clock latest(Clock... all) {
        Clock last = MIDNIGHT;
        for (Clock c : all) {
            if (last.isBefore(c)) last = c;
        }
        return last;
    }

    public static void main(String[] args) {
        Clock start = new Clock(22, 45), wake = Clock.of("7:05");
        System.out.println(start + " " + wake + " " + NOON + " " + MIDNIGHT);
        System.out.println(start.plus(90) + " " + start.plus(8, 20) + " " + wake.plus(NOON) + " "
            + new Clock(wake).equals(wake));
        System.out.println(latest(wake, start, NOON) + " " + latest() + " " + wake.isBefore(NOON) + " "
            + start.compareTo(wake));
        Clock at = MIDNIGHT.plus(-1);
        int n = 0;
        while (!at.equals(NOON)) {
            at = at.plus(7 * 60 + args.length * 0 + 1);
            n++;
            if (n > 500) break;
        }
        System.out.println(at + " " + n + " " + made);
        System.out.println(Clock.of("x9"));
    }
}
