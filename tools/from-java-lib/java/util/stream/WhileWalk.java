package java.util.stream;

import java.util.Iterator;
import java.util.NoSuchElementException;
import java.util.function.Predicate;

/** The elements up to the first that does not pass a test. */
class WhileWalk<T> implements Iterator<T> {
    private Iterator<T> from;
    private Predicate<T> test;
    private T found;
    private boolean ready;
    private boolean over;

    WhileWalk(Iterator<T> from, Predicate<T> test) {
        this.from = from;
        this.test = test;
    }

    public boolean hasNext() {
        if (!ready && !over && from.hasNext()) {
            found = from.next();
            ready = test.test(found);
            over = !ready;
        }
        return ready;
    }

    public T next() {
        if (!hasNext()) {
            throw new NoSuchElementException();
        }
        ready = false;
        return found;
    }
}
