package java.util;

import java.util.function.Function;
import java.util.function.ToIntFunction;

public interface Comparator<T> {
    int compare(T one, T other);

    default Comparator<T> reversed() {
        return (one, other) -> compare(other, one);
    }

    default Comparator<T> thenComparing(Comparator<? super T> next) {
        return (one, other) -> {
            int first = compare(one, other);
            return first != 0 ? first : next.compare(one, other);
        };
    }

    default <U extends Comparable<? super U>> Comparator<T> thenComparing(Function<? super T, ? extends U> key) {
        return (one, other) -> {
            int first = compare(one, other);
            return first != 0 ? first : key.apply(one).compareTo(key.apply(other));
        };
    }

    default <U> Comparator<T> thenComparing(Function<? super T, ? extends U> key, Comparator<? super U> order) {
        return (one, other) -> {
            int first = compare(one, other);
            return first != 0 ? first : order.compare(key.apply(one), key.apply(other));
        };
    }

    default Comparator<T> thenComparingInt(ToIntFunction<? super T> key) {
        return (one, other) -> {
            int first = compare(one, other);
            return first != 0 ? first : Integer.compare(key.applyAsInt(one), key.applyAsInt(other));
        };
    }

    static <T, U extends Comparable<? super U>> Comparator<T> comparing(Function<? super T, ? extends U> key) {
        return (one, other) -> key.apply(one).compareTo(key.apply(other));
    }

    static <T, U> Comparator<T> comparing(Function<? super T, ? extends U> key, Comparator<? super U> order) {
        return (one, other) -> order.compare(key.apply(one), key.apply(other));
    }

    static <T> Comparator<T> comparingInt(ToIntFunction<? super T> key) {
        return (one, other) -> Integer.compare(key.applyAsInt(one), key.applyAsInt(other));
    }

    static <T extends Comparable<? super T>> Comparator<T> naturalOrder() {
        return (one, other) -> one.compareTo(other);
    }

    static <T extends Comparable<? super T>> Comparator<T> reverseOrder() {
        return (one, other) -> other.compareTo(one);
    }

    static <T> Comparator<T> nullsFirst(Comparator<? super T> order) {
        return (one, other) -> one == null ? (other == null ? 0 : -1)
            : other == null ? 1 : order == null ? 0 : order.compare(one, other);
    }

    static <T> Comparator<T> nullsLast(Comparator<? super T> order) {
        return (one, other) -> one == null ? (other == null ? 0 : 1)
            : other == null ? -1 : order == null ? 0 : order.compare(one, other);
    }
}
