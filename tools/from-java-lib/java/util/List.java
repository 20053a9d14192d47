package java.util;

import java.util.function.UnaryOperator;

public interface List<E> extends Collection<E> {
    E get(int index);

    E set(int index, E element);

    void add(int index, E element);

    E remove(int index);

    int indexOf(E element);

    int lastIndexOf(E element);

    boolean addAll(int index, Collection<E> other);

    List<E> subList(int from, int to);

    ListIterator<E> listIterator();

    ListIterator<E> listIterator(int index);

    void sort(Comparator<? super E> order);

    void replaceAll(UnaryOperator<E> change);

    static <E> List<E> of(E... elements) {
        ImmutableList<E> made = new ImmutableList<>();
        made.items = elements;
        for (int k = 0; k < elements.length; k++) {
            if (elements[k] == null) {
                throw new NullPointerException();
            }
        }
        return made;
    }

    static <E> List<E> copyOf(Collection<E> from) {
        ImmutableList<E> made = new ImmutableList<>();
        made.items = from.toArray((E[]) new Object[0]);
        return made;
    }
}
