package java.util;

/** A list that does not change. */
final class ImmutableList<E> extends AbstractList<E> {
    E[] items;

    public int size() {
        return items.length;
    }

    public E get(int index) {
        if (index < 0 || index >= items.length) {
            throw new ArrayIndexOutOfBoundsException("Index " + index + " out of bounds for length " + items.length);
        }
        return items[index];
    }

    public boolean remove(E element) {
        throw new UnsupportedOperationException();
    }

    public void clear() {
        throw new UnsupportedOperationException();
    }

    public void sort(Comparator<? super E> order) {
        throw new UnsupportedOperationException();
    }
}
