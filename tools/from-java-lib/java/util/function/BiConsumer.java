package java.util.function;

@FunctionalInterface
public interface BiConsumer<T, U> {
    void accept(T one, U other);

    default BiConsumer<T, U> andThen(BiConsumer<T, U> next) {
        return (one, other) -> {
            accept(one, other);
            next.accept(one, other);
        };
    }
}
