package java.util.stream;

import java.util.ArrayList;
import java.util.HashMap;
import java.util.List;
import java.util.Map;
import java.util.function.Function;
import java.util.function.Supplier;

class GroupingCollector<T, K, D, M extends Map<K, D>> extends Collector<T, M> {
    private Function<T, K> key;
    private Collector<T, D> each;
    private Supplier<M> make;
    private List<K> keys = new ArrayList<>();
    private Map<K, Collector<T, D>> parts = new HashMap<>();

    GroupingCollector(Function<T, K> key, Collector<T, D> each, Supplier<M> make) {
        this.key = key;
        this.each = each;
        this.make = make;
    }

    void add(T element) {
        K of = key.apply(element);
        Collector<T, D> part = parts.get(of);
        if (part == null) {
            part = each.again();
            parts.put(of, part);
            keys.add(of);
        }
        part.add(element);
    }

    M result() {
        M found = make.get();
        for (int k = 0; k < keys.size(); k++) {
            found.put(keys.get(k), parts.get(keys.get(k)).result());
        }
        return found;
    }

    Collector<T, M> again() {
        return new GroupingCollector<T, K, D, M>(key, each, make);
    }
}
