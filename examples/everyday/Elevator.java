import java.util.LinkedList;
import java.util.List;
import java.util.Queue;

/** A lift that goes from call to call: a state machine with switches of both kinds. */
public class Elevator {
    enum State { IDLE, UP, DOWN, OPEN }

    static class Call {
        final int floor;
        final String who;

        Call(int floor, String who) {
            this.floor = floor;
            this.who = who;
        }
    }

    private State state = State.IDLE;
    private int floor = 0;
    private final Queue<Call> calls = new LinkedList<>();
    private final List<String> served = new LinkedList<>();
    private int steps;

    void call(int to, String who) {
        calls.offer(new Call(to, who));
    }

    void step() {
        steps++;
        switch (state) {
            case IDLE:
                if (calls.isEmpty()) {
                    break;
                }
                state = direction(calls.peek().floor);
                break;
            case UP:
            case DOWN: {
                int next = state == State.UP ? floor + 1 : floor - 1;
                System.out.println(floor + " -> " + next);
                floor = next;
                state = direction(calls.peek().floor);
                break;
            }
            case OPEN:
                served.add(calls.remove().who);
                state = State.IDLE;
                break;
            default:
                throw new AssertionError();
        }
    }

    private State direction(int to) {
        return to > floor ? State.UP : to < floor ? State.DOWN : State.OPEN;
    }

    String shown() {
        return switch (state) {
            case IDLE -> "waits at " + floor;
            case UP, DOWN -> {
                String arrow = state == State.UP ? "^" : "v";
                yield arrow + floor;
            }
            case OPEN -> "open at " + floor;
        };
    }

    static int points(String word) {
        int sum = 0;
        for (char c : word.toCharArray()) {
            switch (c) {
                case 'a': case 'e': case 'i':
                    sum++;
                case 'o': case 'u':
                    sum += 10;
                    break;
                case 'z':
                    return -1;
                default:
                    if (c < 'f') break;
                    sum += 100;
            }
        }
        return sum;
    }

    static String day(int n) {
        String name;
        switch (n % 7) {
            case 6 -> name = "Saturday";
            case 0 -> name = "Sunday";
            default -> {
                if (n > 100) name = "far";
                else name = "day " + n;
            }
        }
        return name;
    }

    static int months(String season) {
        switch (season) {
            case "spring": return 3;
            case "summer": return 6;
            case "fall":
            case "autumn": return 9;
        }
        return -1;
    }

    public static void main(String[] args) {
        Elevator lift = new Elevator();
        lift.call(2, "Ann");
        lift.call(0, "Bob");
        for (String arg : args) lift.call(1, arg);
        while (lift.served.size() < 2 + args.length) {
            lift.step();
            System.out.println(lift.shown());
        }
        System.out.println(lift.served + " in " + lift.steps);
        System.out.println(points("audio") + " " + points("bcd") + " " + points("zoo") + " " + points("hello"));
        for (int i = 5; i < 8; i++) System.out.print(day(i) + (i < 7 ? ", " : "\n"));
        System.out.println(months("summer") + months("autumn") + months("winter") + " " + day(101));
    }
}
