package java.util.stream;

import java.util.LinkedHashMap;
import java.util.Map;
import java.util.function.Predicate;

/** Two parts: what does not pass a test, and what does. */
class PartingCollector<T, D> extends Collector<T, Map<Boolean, D>> {
    private Predicate<T> test;
    private Collector<T, D> no;
    private Collector<T, D> yes;

    PartingCollector(Predicate<T> test, Collector<T, D> each) {
        this.test = test;
        no = each.again();
        yes = each.again();
    }

    void add(T element) {
        if (test.test(element)) {
            yes.add(element);
        } else {
            no.add(element);
        }
    }

    Map<Boolean, D> result() {
        Map<Boolean, D> both = new LinkedHashMap<>();
        both.put(false, no.result());
        both.put(true, yes.result());
        return both;
    }

    Collector<T, Map<Boolean, D>> again() {
        return new PartingCollector<T, D>(test, no);
    }
}
