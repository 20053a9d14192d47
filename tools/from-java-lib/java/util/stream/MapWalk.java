package java.util.stream;

import java.util.Iterator;
import java.util.function.Function;

class MapWalk<T, R> implements Iterator<R> {
    private Iterator<T> from;
    private Function<T, R> change;

    MapWalk(Iterator<T> from, Function<T, R> change) {
        this.from = from;
        this.change = change;
    }

    public boolean hasNext() {
        return from.hasNext();
    }

    public R next() {
        return change.apply(from.next());
    }
}
