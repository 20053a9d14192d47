package java.util.stream;

import java.util.ArrayList;
import java.util.List;

class ListCollector<T> extends Collector<T, List<T>> {
    private List<T> all = new ArrayList<>();

    void add(T element) {
        all.add(element);
    }

    List<T> result() {
        return all;
    }

    Collector<T, List<T>> again() {
        return new ListCollector<T>();
    }
}
