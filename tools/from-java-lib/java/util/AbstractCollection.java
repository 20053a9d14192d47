package java.util;

import java.util.function.Predicate;

public abstract class AbstractCollection<E> implements Collection<E> {
    public abstract Iterator<E> iterator();

    public abstract int size();

    public boolean isEmpty() {
        return size() == 0;
    }

    public boolean contains(E element) {
        Iterator<E> at = iterator();
        while (at.hasNext()) {
            if (Objects.equals(at.next(), element)) {
                return true;
            }
        }
        return false;
    }

    public boolean add(E element) {
        throw new UnsupportedOperationException();
    }

    public boolean remove(E element) {
        Iterator<E> at = iterator();
        while (at.hasNext()) {
            if (Objects.equals(at.next(), element)) {
                at.remove();
                return true;
            }
        }
        return false;
    }

    public void clear() {
        Iterator<E> at = iterator();
        while (at.hasNext()) {
            at.next();
            at.remove();
        }
    }

    public boolean addAll(Collection<? extends E> other) {
        boolean changed = false;
        for (E one : other) {
            if (add(one)) {
                changed = true;
            }
        }
        return changed;
    }

    public boolean containsAll(Collection<E> other) {
        for (E one : other) {
            if (!contains(one)) {
                return false;
            }
        }
        return true;
    }

    public boolean removeAll(Collection<E> other) {
        boolean changed = false;
        Iterator<E> at = iterator();
        while (at.hasNext()) {
            if (other.contains(at.next())) {
                at.remove();
                changed = true;
            }
        }
        return changed;
    }

    public boolean retainAll(Collection<E> other) {
        boolean changed = false;
        Iterator<E> at = iterator();
        while (at.hasNext()) {
            if (!other.contains(at.next())) {
                at.remove();
                changed = true;
            }
        }
        return changed;
    }

    public boolean removeIf(Predicate<E> test) {
        boolean changed = false;
        Iterator<E> at = iterator();
        while (at.hasNext()) {
            if (test.test(at.next())) {
                at.remove();
                changed = true;
            }
        }
        return changed;
    }

    public E[] toArray(E[] into) {
        E[] all = into.length >= size() ? into : (E[]) new Object[size()];
        int k = 0;
        for (E one : this) {
            all[k] = one;
            k++;
        }
        if (k < all.length) {
            all[k] = null;
        }
        return all;
    }

    public Object[] toArray() {
        Object[] all = new Object[size()];
        int k = 0;
        for (E one : this) {
            all[k] = one;
            k++;
        }
        return all;
    }

    public String toString() {
        String text = "[";
        boolean first = true;
        for (E one : this) {
            if (!first) {
                text = text + ", ";
            }
            first = false;
            text = text + one;
        }
        return text + "]";
    }
}
