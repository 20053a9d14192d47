package java.util.stream;

import java.util.Iterator;

/** The elements of one, and then those of another. */
class ChainWalk<T> implements Iterator<T> {
    private Iterator<T> one;
    private Iterator<T> other;

    ChainWalk(Iterator<T> one, Iterator<T> other) {
        this.one = one;
        this.other = other;
    }

    public boolean hasNext() {
        return one.hasNext() || other.hasNext();
    }

    public T next() {
        return one.hasNext() ? one.next() : other.next();
    }
}
