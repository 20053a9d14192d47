package java.util.function;

@FunctionalInterface
public interface BiPredicate<T, U> {
    boolean test(T one, U other);

    default BiPredicate<T, U> negate() {
        return (one, other) -> !test(one, other);
    }

    default BiPredicate<T, U> and(BiPredicate<T, U> next) {
        return (one, other) -> test(one, other) && next.test(one, other);
    }

    default BiPredicate<T, U> or(BiPredicate<T, U> next) {
        return (one, other) -> test(one, other) || next.test(one, other);
    }
}
