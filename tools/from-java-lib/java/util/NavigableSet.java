package java.util;

public interface NavigableSet<E> extends SortedSet<E> {
    E floor(E element);

    E ceiling(E element);

    E lower(E element);

    E higher(E element);

    E pollFirst();

    E pollLast();

    Iterator<E> descendingIterator();

    NavigableSet<E> descendingSet();

    NavigableSet<E> headSet(E end, boolean closed);

    NavigableSet<E> tailSet(E first, boolean closed);

    NavigableSet<E> subSet(E first, boolean closed, E end, boolean endClosed);
}
