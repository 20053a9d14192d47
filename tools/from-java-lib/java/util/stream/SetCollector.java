package java.util.stream;

import java.util.HashSet;
import java.util.Set;

class SetCollector<T> extends Collector<T, Set<T>> {
    private Set<T> all = new HashSet<>();

    void add(T element) {
        all.add(element);
    }

    Set<T> result() {
        return all;
    }

    Collector<T, Set<T>> again() {
        return new SetCollector<T>();
    }
}
