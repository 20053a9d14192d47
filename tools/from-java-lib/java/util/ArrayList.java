package java.util;

public class ArrayList<E> extends AbstractList<E> {
    E[] items = (E[]) new Object[10];
    int count;

    public ArrayList() {
    }

    public ArrayList(int capacity) {
        if (capacity < 0) {
            throw new IllegalArgumentException("Illegal Capacity: " + capacity);
        }
    }

    public ArrayList(Collection<? extends E> from) {
        addAll(from);
    }

    private void check(int index, int end) {
        if (index < 0 || index >= end) {
            throw new IndexOutOfBoundsException(end == count ? "Index " + index + " out of bounds for length "
                + count : "Index: " + index + ", Size: " + count);
        }
    }

    public int size() {
        return count;
    }

    public boolean isEmpty() {
        return count == 0;
    }

    public E get(int index) {
        check(index, count);
        return items[index];
    }

    public E set(int index, E element) {
        check(index, count);
        E old = items[index];
        items[index] = element;
        return old;
    }

    public boolean add(E element) {
        changes++;
        room();
        items[count] = element;
        count++;
        return true;
    }

    private void room() {
        if (count == items.length) {
            E[] more = (E[]) new Object[2 * count];
            for (int k = 0; k < count; k++) {
                more[k] = items[k];
            }
            items = more;
        }
    }

    public void add(int index, E element) {
        check(index, count + 1);
        changes++;
        room();
        for (int k = count; k > index; k--) {
            items[k] = items[k - 1];
        }
        items[index] = element;
        count++;
    }

    public E remove(int index) {
        check(index, count);
        changes++;
        E old = items[index];
        for (int k = index; k + 1 < count; k++) {
            items[k] = items[k + 1];
        }
        count--;
        items[count] = null;
        return old;
    }

    public boolean remove(E element) {
        int at = indexOf(element);
        if (at >= 0) {
            remove(at);
        }
        return at >= 0;
    }

    public void clear() {
        changes++;
        for (int k = 0; k < count; k++) {
            items[k] = null;
        }
        count = 0;
    }

    public void ensureCapacity(int capacity) {
    }

    public void trimToSize() {
    }
}
