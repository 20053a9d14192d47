import java.util.ArrayList;
import java.util.List;

/** Things to do: some once, for somebody, and some again and again. */
public class Jobs {
    static class Job {
        private final String title;
        private String owner;
        private final List<String> notes = new ArrayList<>();
        private int period;
        private int left;

        Job(String title) {
            this.title = title;
        }

        void give(String owner) {
            this.owner = owner;
        }

        void note(String text) {
            notes.add(text);
        }

        String remind() {
            return owner + ": " + title + " " + notes;
        }

        void every(int period) {
            this.period = period;
            left = period;
        }

        boolean tick() {
            if (--left > 0) {
                return false;
            }
            left = period;
            return true;
        }
    }

    public static void main(String[] args) {
        Job call = new Job("call Ann");
        call.give("Bob");
        call.note("before noon");
        System.out.println(call.remind());
        Job pump = new Job("look at the pump");
        pump.every(3);
        for (int day = 1; day <= 7; day++) {
            if (pump.tick()) {
                System.out.println("day " + day + ": " + pump.title);
            }
        }
    }
}
