package java.util;

import java.util.function.IntFunction;
import java.util.function.Predicate;
import java.util.stream.Stream;

public interface Collection<E> extends Iterable<E> {
    default Stream<E> stream() {
        return Stream.<E>over(iterator());
    }

    int size();

    boolean isEmpty();

    boolean contains(E element);

    boolean add(E element);

    boolean remove(E element);

    void clear();

    boolean addAll(Collection<? extends E> other);

    boolean containsAll(Collection<E> other);

    boolean removeAll(Collection<E> other);

    boolean retainAll(Collection<E> other);

    boolean removeIf(Predicate<E> test);

    Object[] toArray();

    E[] toArray(E[] into);

    default E[] toArray(IntFunction<E[]> make) {
        return toArray(make.apply(0));
    }
}
