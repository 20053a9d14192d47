package java.util;

/** Goes over a list by its places. */
final class ListWalk<E> implements Iterator<E> {
    AbstractList<E> list;
    int changes;
    int at;
    int last;

    public boolean hasNext() {
        return at != list.size();
    }

    private void check() {
        if (changes != list.changes) {
            throw new ConcurrentModificationException();
        }
    }

    public E next() {
        check();
        if (at >= list.size()) {
            throw new NoSuchElementException();
        }
        last = at;
        at++;
        return list.get(last);
    }

    public void remove() {
        if (last < 0) {
            throw new IllegalStateException();
        }
        check();
        list.remove(last);
        at = last;
        last = -1;
        changes = list.changes;
    }
}
