package java.util.stream;

import java.util.Optional;
import java.util.function.BinaryOperator;

class ReducingCollector<T> extends Collector<T, Optional<T>> {
    private BinaryOperator<T> join;
    private T all;
    private boolean any;

    ReducingCollector(BinaryOperator<T> join) {
        this.join = join;
    }

    void add(T element) {
        all = any ? join.apply(all, element) : element;
        any = true;
    }

    Optional<T> result() {
        return Optional.<T>ofNullable(all);
    }

    Collector<T, Optional<T>> again() {
        return new ReducingCollector<T>(join);
    }
}
