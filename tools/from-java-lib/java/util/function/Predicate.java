package java.util.function;

import java.util.Objects;

@FunctionalInterface
public interface Predicate<T> {
    boolean test(T value);

    default Predicate<T> negate() {
        return value -> !test(value);
    }

    default Predicate<T> and(Predicate<T> other) {
        return value -> test(value) && other.test(value);
    }

    default Predicate<T> or(Predicate<T> other) {
        return value -> test(value) || other.test(value);
    }

    static <T> Predicate<T> not(Predicate<? super T> test) {
        return value -> !test.test(value);
    }

    static <T> Predicate<T> isEqual(Object other) {
        return value -> Objects.equals(value, other);
    }
}
