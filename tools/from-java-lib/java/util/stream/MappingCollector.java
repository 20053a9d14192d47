package java.util.stream;

import java.util.function.Function;

class MappingCollector<T, U, R> extends Collector<T, R> {
    private Function<T, U> change;
    private Collector<U, R> each;

    MappingCollector(Function<T, U> change, Collector<U, R> each) {
        this.change = change;
        this.each = each.again();
    }

    void add(T element) {
        each.add(change.apply(element));
    }

    R result() {
        return each.result();
    }

    Collector<T, R> again() {
        return new MappingCollector<T, U, R>(change, each);
    }
}
