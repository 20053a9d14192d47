package java.util;

import java.util.function.UnaryOperator;

public abstract class AbstractList<E> extends AbstractCollection<E> implements List<E> {
    int changes;

    public abstract E get(int index);

    public E set(int index, E element) {
        throw new UnsupportedOperationException();
    }

    public void add(int index, E element) {
        throw new UnsupportedOperationException();
    }

    public E remove(int index) {
        throw new UnsupportedOperationException();
    }

    public boolean add(E element) {
        add(size(), element);
        return true;
    }

    public int indexOf(E element) {
        for (int k = 0; k < size(); k++) {
            if (Objects.equals(get(k), element)) {
                return k;
            }
        }
        return -1;
    }

    public int lastIndexOf(E element) {
        for (int k = size() - 1; k >= 0; k--) {
            if (Objects.equals(get(k), element)) {
                return k;
            }
        }
        return -1;
    }

    public boolean contains(E element) {
        return indexOf(element) >= 0;
    }

    public boolean addAll(int index, Collection<E> other) {
        int at = index;
        for (E one : other) {
            add(at, one);
            at++;
        }
        return at > index;
    }

    public List<E> subList(int from, int to) {
        if (from < 0 || to > size() || from > to) {
            throw new IndexOutOfBoundsException("fromIndex: " + from + ", toIndex: " + to);
        }
        SubList<E> made = new SubList<>();
        made.whole = this;
        made.from = from;
        made.size = to - from;
        return made;
    }

    public void sort(Comparator<? super E> order) {
        E[] all = toArray((E[]) new Object[size()]);
        Arrays.sort(all, (Comparator<E>) order);
        for (int k = 0; k < all.length; k++) {
            set(k, all[k]);
        }
        changes++;
    }

    public void replaceAll(UnaryOperator<E> change) {
        for (int k = 0; k < size(); k++) {
            set(k, change.apply(get(k)));
        }
    }

    public Iterator<E> iterator() {
        ListWalk<E> walk = new ListWalk<>();
        walk.list = this;
        walk.changes = changes;
        walk.last = -1;
        return walk;
    }

    public boolean equals(Object other) {
        if (!(other instanceof AbstractList)) {
            return false;
        }
        AbstractList<E> list = (AbstractList<E>) other;
        if (list.size() != size()) {
            return false;
        }
        for (int k = 0; k < size(); k++) {
            if (!Objects.equals(get(k), list.get(k))) {
                return false;
            }
        }
        return true;
    }

    public int hashCode() {
        int hash = 1;
        for (int k = 0; k < size(); k++) {
            hash = 31 * hash + Objects.hashCode(get(k));
        }
        return hash;
    }

    public ListIterator<E> listIterator() {
        return listIterator(0);
    }

    public ListIterator<E> listIterator(int index) {
        if (index < 0 || index > size()) {
            throw new IndexOutOfBoundsException("Index: " + index);
        }
        ListSteps<E> steps = new ListSteps<>();
        steps.list = this;
        steps.changes = changes;
        steps.at = index;
        return steps;
    }
}
