package java.util.stream;

import java.util.function.ToIntFunction;

class SummingCollector<T> extends Collector<T, Integer> {
    private ToIntFunction<T> value;
    private int sum;

    SummingCollector(ToIntFunction<T> value) {
        this.value = value;
    }

    void add(T element) {
        sum += value.applyAsInt(element);
    }

    Integer result() {
        return sum;
    }

    Collector<T, Integer> again() {
        return new SummingCollector<T>(value);
    }
}
