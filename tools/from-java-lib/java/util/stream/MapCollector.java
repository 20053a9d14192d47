package java.util.stream;

import java.util.Map;
import java.util.function.BinaryOperator;
import java.util.function.Function;
import java.util.function.Supplier;

class MapCollector<T, K, V, M extends Map<K, V>> extends Collector<T, M> {
    private Function<T, K> key;
    private Function<T, V> value;
    private BinaryOperator<V> join;
    private Supplier<M> make;
    private M all;

    MapCollector(Function<T, K> key, Function<T, V> value, BinaryOperator<V> join, Supplier<M> make) {
        this.key = key;
        this.value = value;
        this.join = join;
        this.make = make;
        all = make.get();
    }

    void add(T element) {
        K of = key.apply(element);
        V next = value.apply(element);
        V old = all.get(of);
        if (old != null && join == null) {
            throw new IllegalStateException("Duplicate key " + of + " (attempted merging values " + old + " and " + next
                + ")");
        }
        all.put(of, old == null ? next : join.apply(old, next));
    }

    M result() {
        return all;
    }

    Collector<T, M> again() {
        return new MapCollector<T, K, V, M>(key, value, join, make);
    }
}
