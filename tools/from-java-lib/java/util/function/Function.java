package java.util.function;

@FunctionalInterface
public interface Function<T, R> {
    R apply(T value);

    default <V> Function<T, V> andThen(Function<R, V> next) {
        return value -> next.apply(apply(value));
    }

    default <V> Function<V, R> compose(Function<V, T> before) {
        return value -> apply(before.apply(value));
    }

    static <T> Function<T, T> identity() {
        return value -> value;
    }
}
