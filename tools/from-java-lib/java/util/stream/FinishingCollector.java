package java.util.stream;

import java.util.function.Function;

class FinishingCollector<T, R, S> extends Collector<T, S> {
    private Collector<T, R> each;
    private Function<R, S> last;

    FinishingCollector(Collector<T, R> each, Function<R, S> last) {
        this.each = each.again();
        this.last = last;
    }

    void add(T element) {
        each.add(element);
    }

    S result() {
        return last.apply(each.result());
    }

    Collector<T, S> again() {
        return new FinishingCollector<T, R, S>(each, last);
    }
}
