import java.util.*;
import java.util.function.*;

/** Listeners as anonymous classes, lambdas and method references; suppliers, consumers, local classes. */
public class Events {
    interface Listener {
        void heard(String event, int strength);
    }

    private final List<Listener> listeners = new ArrayList<>();
    private int count;
    private final String name;

    Events(String name) {
        this.name = name;
        listeners.add(new Listener() {
            private int sum;

            @Override
            public void heard(String event, int strength) {
                sum += strength;
                count++;
                System.out.println(Events.this.name + " counts " + count + ", sum " + sum);
            }
        });
    }

    void on(Listener listener) {
        listeners.add(listener);
    }

    void fire(String event, int strength) {
        for (Listener listener : listeners) {
            listener.heard(event, strength);
        }
    }

    private void print(String event, int strength) {
        System.out.println(name + ": " + event + "!".repeat(strength));
    }

    static Supplier<Integer> counter(int from) {
        int[] next = {from};
        return () -> next[0]++;
    }

    static Function<Integer, Integer> compose(Function<Integer, Integer> f, Function<Integer, Integer> g) {
        return x -> g.apply(f.apply(x));
    }

    static int fold(int[] all, int start, IntBinaryOperator step) {
        int value = start;
        for (int one : all) value = step.applyAsInt(value, one);
        return value;
    }

    public static void main(String[] args) {
        Events events = new Events("door");
        events.on((event, strength) -> System.out.println("lambda " + event));
        events.on(events::print);
        final int most = 2 + args.length;
        class Filter implements Listener {
            private final Listener next;
            private int dropped;

            Filter(Listener next) {
                this.next = next;
            }

            public void heard(String event, int strength) {
                if (strength <= most) next.heard(event, strength);
                else dropped++;
            }
        }
        Filter filter = new Filter((e, s) -> System.out.println("passed " + e + " " + s));
        events.on(filter);
        events.fire("open", 1);
        events.fire("slam", 9);
        System.out.println(filter.dropped);
        Supplier<Integer> a = counter(5), b = counter(100);
        System.out.println(a.get() + a.get() * b.get() + b.get());
        Function<Integer, Integer> inc = x -> x + 1, twice = x -> x * 2;
        System.out.println(compose(inc, twice).apply(5) + " " + compose(twice, inc).apply(5) + " "
            + inc.andThen(twice).andThen(inc).apply(1));
        int[] numbers = {3, 9, 4};
        System.out.println(fold(numbers, 0, Integer::sum) + " " + fold(numbers, numbers[0], Math::max) + " "
            + fold(numbers, 1, (x, y) -> x * y));
        BiFunction<String, Integer, String> repeat = String::repeat;
        Supplier<List<String>> maker = ArrayList::new;
        List<String> made = maker.get();
        made.add(repeat.apply("ab", 2));
        Consumer<String> show = System.out::println;
        made.forEach(show);
        Runnable[] jobs = new Runnable[3];
        for (int i = 0; i < jobs.length; i++) {
            int k = i;
            jobs[i] = () -> System.out.print(k * k + " ");
        }
        for (Runnable job : jobs) job.run();
        System.out.println();
        Map<String, IntUnaryOperator> operators = new TreeMap<>();
        operators.put("neg", x -> -x);
        operators.put("sq", x -> x * x);
        operators.forEach((key, op) -> System.out.println(key + " " + op.applyAsInt(7)));
    }
}
