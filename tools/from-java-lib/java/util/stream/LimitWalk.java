package java.util.stream;

import java.util.Iterator;

class LimitWalk<T> implements Iterator<T> {
    private Iterator<T> from;
    private int left;

    LimitWalk(Iterator<T> from, int left) {
        this.from = from;
        this.left = left;
    }

    public boolean hasNext() {
        return left > 0 && from.hasNext();
    }

    public T next() {
        left--;
        return from.next();
    }
}
