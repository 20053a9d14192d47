package java.util.stream;

import java.util.function.Predicate;

class FilteringCollector<T, R> extends Collector<T, R> {
    private Predicate<T> test;
    private Collector<T, R> each;

    FilteringCollector(Predicate<T> test, Collector<T, R> each) {
        this.test = test;
        this.each = each.again();
    }

    void add(T element) {
        if (test.test(element)) {
            each.add(element);
        }
    }

    R result() {
        return each.result();
    }

    Collector<T, R> again() {
        return new FilteringCollector<T, R>(test, each);
    }
}
