import java.util.*;

/** A car park with static counters, an interface for fees, and faults of the program itself. */
public class Parking {
    interface Fee {
        int HOUR = 60;

        int of(int minutes);

        static Fee flat(int price) {
            return minutes -> minutes == 0 ? 0 : price;
        }
    }

    static class Hourly implements Fee {
        private final int perHour;

        Hourly(int perHour) {
            this.perHour = perHour;
        }

        @Override
        public int of(int minutes) {
            return (minutes + HOUR - 1) / HOUR * perHour;
        }
    }

    private static int tickets = 0;
    private static final Map<String, Integer> TAKINGS = new LinkedHashMap<>();

    static {
        TAKINGS.put("car", 0);
        TAKINGS.put("bike", 0);
    }

    private class Ticket {
        final int number = ++tickets;
        final String kind;
        final int since;

        Ticket(String kind) {
            this.kind = kind;
            this.since = clock;
        }

        int close() {
            int price = fee.of(clock - since);
            TAKINGS.put(kind, TAKINGS.get(kind) + price);
            free++;
            return price;
        }
    }

    private int clock, free;
    private final Fee fee;
    private final Ticket[] places;

    Parking(int size, Fee fee) {
        this.fee = fee;
        free = size;
        places = new Ticket[size];
    }

    int enter(String kind) {
        for (int i = 0; i < places.length; i++) {
            if (places[i] == null) {
                places[i] = new Ticket(kind);
                free--;
                return i;
            }
        }
        return -1;
    }

    int leave(int place) {
        Ticket ticket = places[place];
        places[place] = null;
        return ticket.close();
    }

    void pass(int minutes) {
        clock += minutes;
    }

    public static void main(String[] args) {
        Parking park = new Parking(3, new Hourly(200));
        int a = park.enter("car"), b = park.enter("bike");
        park.pass(61);
        int c = park.enter("car");
        System.out.println(a + " " + b + " " + c + " " + park.enter("car") + " free " + park.free);
        System.out.println(park.leave(a) + " " + park.leave(b));
        park.pass(10);
        System.out.println(park.leave(c));
        Parking yard = new Parking(2, Fee.flat(350));
        int d = yard.enter("bike");
        yard.pass(1);
        System.out.println(yard.leave(d) + " " + TAKINGS + " " + tickets);
        System.out.println(yard.leave(args.length == 0 ? d : 5));
    }
}
