package java.util.stream;

import java.util.Iterator;
import java.util.NoSuchElementException;
import java.util.function.Function;

/** The elements of all that a function gives for elements. */
class FlatWalk<T, R> implements Iterator<R> {
    private Iterator<T> from;
    private Function<T, Stream<R>> change;
    private Iterator<R> inner;

    FlatWalk(Iterator<T> from, Function<T, Stream<R>> change) {
        this.from = from;
        this.change = change;
    }

    public boolean hasNext() {
        while ((inner == null || !inner.hasNext()) && from.hasNext()) {
            Stream<R> next = change.apply(from.next());
            inner = next == null ? null : next.iterator();
        }
        return inner != null && inner.hasNext();
    }

    public R next() {
        if (!hasNext()) {
            throw new NoSuchElementException();
        }
        return inner.next();
    }
}
