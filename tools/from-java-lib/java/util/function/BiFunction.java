package java.util.function;

@FunctionalInterface
public interface BiFunction<T, U, R> {
    R apply(T one, U other);

    default <V> BiFunction<T, U, V> andThen(Function<R, V> next) {
        return (one, other) -> next.apply(apply(one, other));
    }
}
