package java.util;

/** A part of a list. */
final class SubList<E> extends AbstractList<E> {
    AbstractList<E> whole;
    int from;
    int size;

    private void check(int index, int end) {
        if (index < 0 || index >= end) {
            throw new IndexOutOfBoundsException("Index " + index + " out of bounds for length " + size);
        }
    }

    public int size() {
        return size;
    }

    public E get(int index) {
        check(index, size);
        return whole.get(from + index);
    }

    public E set(int index, E element) {
        check(index, size);
        return whole.set(from + index, element);
    }

    public void add(int index, E element) {
        check(index, size + 1);
        whole.add(from + index, element);
        size++;
        changes++;
    }

    public E remove(int index) {
        check(index, size);
        size--;
        changes++;
        return whole.remove(from + index);
    }
}
