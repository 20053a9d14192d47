package java.util;

/** Goes over a list in both directions. */
final class ListSteps<E> implements ListIterator<E> {
    AbstractList<E> list;
    int changes;
    int at;
    int last = -1;

    private void check() {
        if (changes != list.changes) {
            throw new ConcurrentModificationException();
        }
    }

    private void checkLast() {
        if (last < 0) {
            throw new IllegalStateException();
        }
        check();
    }

    public boolean hasNext() {
        return at != list.size();
    }

    public E next() {
        check();
        if (at >= list.size()) {
            throw new NoSuchElementException();
        }
        last = at;
        at++;
        return list.get(last);
    }

    public boolean hasPrevious() {
        return at > 0;
    }

    public E previous() {
        check();
        if (at <= 0) {
            throw new NoSuchElementException();
        }
        at--;
        last = at;
        return list.get(last);
    }

    public int nextIndex() {
        return at;
    }

    public int previousIndex() {
        return at - 1;
    }

    public void remove() {
        checkLast();
        list.remove(last);
        at = last;
        last = -1;
        changes = list.changes;
    }

    public void set(E element) {
        checkLast();
        list.set(last, element);
    }

    public void add(E element) {
        check();
        list.add(at, element);
        at++;
        last = -1;
        changes = list.changes;
    }
}
