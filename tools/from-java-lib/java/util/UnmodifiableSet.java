package java.util;

/** A set through which another is read. */
final class UnmodifiableSet<E> extends AbstractSet<E> {
    Set<E> all;

    public int size() {
        return all.size();
    }

    public boolean contains(E element) {
        return all.contains(element);
    }

    public Iterator<E> iterator() {
        UnmodifiableWalk<E> walk = new UnmodifiableWalk<>();
        walk.from = all.iterator();
        return walk;
    }

    public boolean remove(E element) {
        throw new UnsupportedOperationException();
    }

    public void clear() {
        throw new UnsupportedOperationException();
    }
}
