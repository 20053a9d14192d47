import java.util.ArrayList;
import java.util.EnumMap;
import java.util.List;
import java.util.Map;
import java.util.function.Consumer;

public class TrafficLight {
    enum State {
        RED(5) {
            @Override
            State next() { return RED_YELLOW; }
        },
        RED_YELLOW(1) {
            @Override
            State next() { return GREEN; }
        },
        GREEN(4) {
            @Override
            State next() { return YELLOW; }
        },
        YELLOW(2) {
            @Override
            State next() { return RED; }

            @Override
            boolean mayDrive() { return true; }
        };

        final int duration;

        State(int duration) { this.duration = duration; }

        abstract State next();

        boolean mayDrive() { return this == GREEN; }
    }

    private State state = State.RED;
    private int remaining = state.duration;
    private final List<Consumer<State>> observers = new ArrayList<>();

    void observe(Consumer<State> observer) { observers.add(observer); }

    void tick() {
        if (--remaining == 0) {
            state = state.next();
            remaining = state.duration;
            observers.forEach(o -> o.accept(state));
        }
    }

    static class Turnstile {
        private enum Mode { LOCKED, UNLOCKED, BROKEN }

        private Mode mode = Mode.LOCKED;
        private int coins;

        Turnstile handle(String event) {
            Mode old = mode;
            switch (mode) {
                case LOCKED -> {
                    switch (event) {
                        case "coin" -> { coins++; mode = Mode.UNLOCKED; }
                        case "push" -> System.out.println("  (locked)");
                        case "kick" -> mode = Mode.BROKEN;
                        default -> throw new IllegalArgumentException(event);
                    }
                }
                case UNLOCKED -> mode = switch (event) {
                    case "push" -> Mode.LOCKED;
                    case "coin" -> {
                        coins++;
                        System.out.println("  (thanks)");
                        yield Mode.UNLOCKED;
                    }
                    case "kick" -> Mode.BROKEN;
                    default -> throw new IllegalArgumentException(event);
                };
                case BROKEN -> {
                    if ("repair".equals(event)) mode = Mode.LOCKED;
                }
            }
            System.out.println(event + ": " + old + (old == mode ? "" : " -> " + mode));
            return this;
        }
    }

    public static void main(String[] args) {
        TrafficLight light = new TrafficLight();
        Map<State, Integer> seen = new EnumMap<>(State.class);
        StringBuilder trace = new StringBuilder();
        light.observe(s -> seen.merge(s, 1, Integer::sum));
        light.observe(s -> trace.append(s.name().charAt(0)).append(s.mayDrive() ? "! " : " "));
        for (int t = 0; t < 30; t++) light.tick();
        System.out.println(trace.toString().trim());
        System.out.println(seen);
        Turnstile t = new Turnstile();
        t.handle("push").handle("coin").handle("coin").handle("push").handle("kick").handle("coin").handle("repair");
        System.out.println(t.coins + " coins");
        try {
            t.handle("shout");
        } catch (IllegalArgumentException e) {
            System.out.println("unknown event: " + e.getMessage());
        }
    }
}
