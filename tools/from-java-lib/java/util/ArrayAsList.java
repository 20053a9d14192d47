package java.util;

/** An array seen as a list. */
final class ArrayAsList<E> extends AbstractList<E> {
    E[] items;

    private void check(int index) {
        if (index < 0 || index >= items.length) {
            throw new ArrayIndexOutOfBoundsException("Index " + index + " out of bounds for length " + items.length);
        }
    }

    public int size() {
        return items.length;
    }

    public E get(int index) {
        check(index);
        return items[index];
    }

    public E set(int index, E element) {
        check(index);
        E old = items[index];
        items[index] = element;
        return old;
    }
}
