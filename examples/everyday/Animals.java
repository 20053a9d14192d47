import java.util.*;
import java.util.function.*;

public class Animals {
    sealed interface Animal permits Dog, Cat, Cow {
        String sound();

        default String speak(int times) {
            StringJoiner sj = new StringJoiner("-");
            for (int i = 0; i < times; i++) sj.add(sound());
            return name() + ": " + sj;
        }

        private String name() { return getClass().getSimpleName(); }
    }

    record Dog(String breed, int age) implements Animal {
        static int created = 0;

        Dog {
            if (age < 0) throw new IllegalArgumentException("age");
            created++;
        }

        Dog(String breed) { this(breed, 1); }

        public String sound() { return age > 10 ? "woof" : "WOOF"; }
    }

    record Cat(String color) implements Animal {
        public String sound() { return "meow"; }

        boolean isBlack() { return "black".equalsIgnoreCase(color); }
    }

    static final class Cow implements Animal {
        private final List<Integer> milk = new ArrayList<>();

        void give(int... litres) { for (int l : litres) milk.add(l); }

        int total() { return milk.stream().mapToInt(Integer::intValue).sum(); }

        @Override public String sound() { return "moo"; }

        @Override public String toString() { return "Cow" + milk; }
    }

    static String describe(Animal a) {
        if (a instanceof Dog d && d.age() > 5) return "old dog " + d.breed();
        if (a instanceof Dog d) return "dog " + d.breed();
        if (a instanceof Cat c) return (c.isBlack() ? "black" : c.color()) + " cat";
        return "cow giving " + ((Cow) a).total();
    }

    static class Counter {
        private int count;
        private final int step;

        Counter(int step) { this.step = step; }

        class Handle {
            private final String label;

            Handle(String label) { this.label = label; }

            void click() { count += step; }

            @Override public String toString() { return label + "@" + count; }
        }

        Handle handle(String label) { return new Handle(label); }
    }

    static <T, R extends Comparable<R>> T best(Collection<? extends T> items, Function<? super T, R> key) {
        T best = null;
        R bestKey = null;
        for (T item : items) {
            R k = key.apply(item);
            if (bestKey == null || k.compareTo(bestKey) > 0) {
                best = item;
                bestKey = k;
            }
        }
        return best;
    }

    public static void main(String[] args) {
        Cow cow = new Cow();
        cow.give(3, 4, 5);
        cow.give();
        List<Animal> farm = new ArrayList<>(List.of(new Dog("Collie", 12), new Dog("Pug"), new Cat("Black"), cow));
        for (Animal a : farm) System.out.println(describe(a) + " | " + a.speak(2) + " | " + a);
        System.out.println(Dog.created + " " + new Dog("Pug").equals(farm.get(1)) + " " + best(farm, Animal::sound));
        Counter c = new Counter(5);
        Counter.Handle h = c.handle("left"), g = c.new Handle("right");
        h.click();
        g.click();
        System.out.println(h + " " + g);
        Runnable[] tasks = new Runnable[3];
        for (int i = 0; i < tasks.length; i++) {
            final int n = i;
            tasks[i] = () -> System.out.print("task" + n + " ");
        }
        for (Runnable r : tasks) r.run();
        System.out.println();
        Supplier<List<String>> maker = ArrayList::new;
        List<String> made = maker.get();
        made.add("z");
        BiFunction<Integer, Integer, Integer> add = (a, b) -> a + b;
        UnaryOperator<String> up = String::toUpperCase;
        Function<Integer, Function<Integer, Integer>> curried = a -> b -> a * b;
        System.out.println(made + " " + add.andThen(x -> x * 2).apply(3, 4) + " " + up.apply("abc") + " " + curried.apply(6).apply(7));
        int x = 5;
        x += x++ + ++x;
        x <<= 2;
        x ^= 0xFF;
        char ch = 'a';
        ch += 2;
        byte b = (byte) 200;
        short s = (short) (b * 300);
        System.out.println(x + " " + ch + " " + (char) (ch + 1) + " " + b + " " + s + " " + (b & 0xff) + " " + (-7 / 2) + " " + (-7 % 3) + " " + (-7 >>> 28));
        System.out.println(1 + 2 + "3" + 4 + 5 + 'c' + null + true);
        final int[][] triangle = new int[5][];
        for (int i = 0; i < triangle.length; i++) {
            triangle[i] = new int[i + 1];
            triangle[i][0] = triangle[i][i] = 1;
            for (int j = 1; j < i; j++) triangle[i][j] = triangle[i - 1][j - 1] + triangle[i - 1][j];
        }
        for (int[] row : triangle) System.out.println(Arrays.toString(row));
        StringBuilder sb = new StringBuilder("hello");
        sb.insert(0, '[').append(']').setCharAt(1, 'H');
        sb.deleteCharAt(sb.length() - 1).replace(0, 1, "<<");
        System.out.println(sb + " " + sb.indexOf("l") + " " + sb.charAt(2));
        label:
        for (int i = 0; ; i++) {
            for (int j = 0; j < 3; j++) {
                if (i * j == 4) break label;
                if (j > i) continue label;
                System.out.print(i + "" + j + " ");
            }
        }
        System.out.println();
        do { x >>= 1; } while (x > 3);
        System.out.println(x);
    }
}
