package java.util.function;

@FunctionalInterface
public interface Consumer<T> {
    void accept(T value);

    default Consumer<T> andThen(Consumer<T> next) {
        return value -> {
            accept(value);
            next.accept(value);
        };
    }
}
