package java.util.stream;

import java.util.Iterator;
import java.util.NoSuchElementException;
import java.util.function.Predicate;

class FilterWalk<T> implements Iterator<T> {
    private Iterator<T> from;
    private Predicate<T> test;
    private T found;
    private boolean ready;

    FilterWalk(Iterator<T> from, Predicate<T> test) {
        this.from = from;
        this.test = test;
    }

    public boolean hasNext() {
        while (!ready && from.hasNext()) {
            found = from.next();
            ready = test.test(found);
        }
        return ready;
    }

    public T next() {
        if (!hasNext()) {
            throw new NoSuchElementException();
        }
        ready = false;
        return found;
    }
}
