package java.util;

public class Vector<E> extends ArrayList<E> {
    public Vector() {
    }

    public Vector(int capacity) {
        super(capacity);
    }

    public Vector(Collection<? extends E> from) {
        super(from);
    }

    public void addElement(E element) {
        add(element);
    }

    public E elementAt(int index) {
        return get(index);
    }

    public E firstElement() {
        if (isEmpty()) {
            throw new NoSuchElementException();
        }
        return get(0);
    }

    public E lastElement() {
        if (isEmpty()) {
            throw new NoSuchElementException();
        }
        return get(size() - 1);
    }

    public void insertElementAt(E element, int index) {
        add(index, element);
    }

    public void setElementAt(E element, int index) {
        set(index, element);
    }

    public boolean removeElement(E element) {
        return remove(element);
    }

    public void removeElementAt(int index) {
        remove(index);
    }

    public void removeAllElements() {
        clear();
    }
}
