import java.util.HashMap;
import java.util.LinkedHashMap;
import java.util.Map;
import java.util.Objects;
import java.util.Optional;

/** A cache that forgets what was not used for longest, with generic pairs and Optional. */
public class Cache<K, V> {
    static class Pair<A, B> {
        private final A first;
        private final B second;

        Pair(A first, B second) {
            this.first = first;
            this.second = second;
        }

        static <A, B> Pair<A, B> of(A first, B second) {
            return new Pair<>(first, second);
        }

        A first() {
            return first;
        }

        B second() {
            return second;
        }

        Pair<B, A> swap() {
            return new Pair<>(second, first);
        }

        @Override
        public boolean equals(Object o) {
            if (!(o instanceof Pair)) return false;
            Pair<?, ?> p = (Pair<?, ?>) o;
            return Objects.equals(first, p.first) && Objects.equals(second, p.second);
        }

        @Override
        public int hashCode() {
            return Objects.hash(first, second);
        }

        @Override
        public String toString() {
            return "<" + first + ", " + second + ">";
        }
    }

    private final int capacity;
    private final Map<K, V> kept = new LinkedHashMap<>();
    private int hits, misses;

    Cache(int capacity) {
        this.capacity = capacity;
    }

    Optional<V> get(K key) {
        V value = kept.remove(key);
        if (value == null) {
            misses++;
            return Optional.empty();
        }
        hits++;
        kept.put(key, value);
        return Optional.of(value);
    }

    void put(K key, V value) {
        kept.remove(key);
        if (kept.size() == capacity) {
            K oldest = kept.keySet().iterator().next();
            kept.remove(oldest);
        }
        kept.put(key, value);
    }

    private static final Map<Integer, Integer> KNOWN = new HashMap<>();

    static int fibonacci(int n) {
        if (n < 2) return n;
        Integer known = KNOWN.get(n);
        if (known != null) return known;
        int value = fibonacci(n - 1) + fibonacci(n - 2);
        KNOWN.put(n, value);
        return value;
    }

    public static void main(String[] args) {
        Cache<String, Integer> cache = new Cache<>(2);
        cache.put("a", 1);
        cache.put("b", 2);
        System.out.println(cache.get("a").get() + " " + cache.get("c").isPresent());
        cache.put("c", 3);
        System.out.println(cache.kept + " " + cache.get("b").orElse(-1) + " " + cache.hits + "/" + cache.misses);
        Cache<Pair<Integer, Integer>, String> grid = new Cache<>(10);
        grid.put(Pair.of(1, 2), "here");
        System.out.println(grid.get(new Pair<>(1, 2)).orElse("no") + " " + grid.get(Pair.of(2, 1)).orElse("no"));
        Pair<String, Integer> p = Pair.of("x", args.length);
        Pair<Integer, String> q = p.swap();
        System.out.println(p + " " + q + " " + q.first() + q.second() + " " + p.equals(q.swap()) + " "
            + p.equals(null) + " " + Pair.of(null, "n"));
        System.out.println(fibonacci(40) + " " + KNOWN.size());
        System.out.println(cache.get("zzz").get());
    }
}
