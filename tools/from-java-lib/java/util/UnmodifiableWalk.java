package java.util;

final class UnmodifiableWalk<E> implements Iterator<E> {
    Iterator<E> from;

    public boolean hasNext() {
        return from.hasNext();
    }

    public E next() {
        return from.next();
    }
}
