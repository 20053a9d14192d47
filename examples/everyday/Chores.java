/** Chores of a house: one class for what is done once and for what is done again and again. */
public class Chores {
    static class Job {
        private final String title;
        private String owner;
        private boolean done = false;
        private int period, left;

        Job(String title) {
            this.title = title;
        }

        void give(String owner) {
            this.owner = owner;
        }

        String remind() {
            return title + (done ? " is done" : ", " + owner);
        }

        void finish() {
            done = true;
        }

        void every(int period) {
            this.period = period;
        }

        void tick() {
            left = (left + 1) % period;
        }

        int percent() {
            return 100 * left / period;
        }
    }

    public static void main(String[] args) {
        Job call = new Job("call");
        call.give("Ann");
        System.out.println(call.remind());
        call.finish();
        System.out.println(call.remind());
        Job pump = new Job("pump");
        pump.every(3);
        for (int hour = 0; hour < 5; hour++) {
            pump.tick();
        }
        System.out.println(pump.title + " " + pump.percent());
    }
}
