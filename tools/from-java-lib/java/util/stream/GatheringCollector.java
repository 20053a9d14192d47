package java.util.stream;

import java.util.Collection;
import java.util.function.Supplier;

class GatheringCollector<T, C extends Collection<T>> extends Collector<T, C> {
    private Supplier<C> make;
    private C all;

    GatheringCollector(Supplier<C> make) {
        this.make = make;
        all = make.get();
    }

    void add(T element) {
        all.add(element);
    }

    C result() {
        return all;
    }

    Collector<T, C> again() {
        return new GatheringCollector<T, C>(make);
    }
}
