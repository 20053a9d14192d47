package java.util;

final class HeapWalk<E> implements Iterator<E> {
    E[] items;
    int count;
    int at;

    public boolean hasNext() {
        return at < count;
    }

    public E next() {
        if (at >= count) {
            throw new NoSuchElementException();
        }
        at++;
        return items[at - 1];
    }
}
