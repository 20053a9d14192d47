package java.util.function;

import java.util.Comparator;

@FunctionalInterface
public interface BinaryOperator<T> extends BiFunction<T, T, T> {
    static <T> BinaryOperator<T> minBy(Comparator<? super T> order) {
        return (one, other) -> order.compare(one, other) <= 0 ? one : other;
    }

    static <T> BinaryOperator<T> maxBy(Comparator<? super T> order) {
        return (one, other) -> order.compare(one, other) >= 0 ? one : other;
    }
}
