package java.util;

public interface SortedSet<E> extends Set<E> {
    E first();

    E last();

    NavigableSet<E> headSet(E end);

    NavigableSet<E> tailSet(E first);

    NavigableSet<E> subSet(E first, E end);
}
