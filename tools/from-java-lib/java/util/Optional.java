package java.util;

import java.util.function.Consumer;
import java.util.function.Function;
import java.util.function.Predicate;
import java.util.function.Supplier;
import java.util.stream.Stream;

public final class Optional<T> {
    private T value;

    public static <T> Optional<T> empty() {
        return new Optional<>();
    }

    public static <T> Optional<T> of(T value) {
        if (value == null) {
            throw new NullPointerException();
        }
        Optional<T> made = new Optional<>();
        made.value = value;
        return made;
    }

    public static <T> Optional<T> ofNullable(T value) {
        Optional<T> made = new Optional<>();
        made.value = value;
        return made;
    }

    public boolean isPresent() {
        return value != null;
    }

    public boolean isEmpty() {
        return value == null;
    }

    public T get() {
        if (value == null) {
            throw new NoSuchElementException("No value present");
        }
        return value;
    }

    public T orElse(T other) {
        return value != null ? value : other;
    }

    public T orElseGet(Supplier<? extends T> other) {
        return value != null ? value : other.get();
    }

    public T orElseThrow() {
        return get();
    }

    public void ifPresent(Consumer<T> action) {
        if (value != null) {
            action.accept(value);
        }
    }

    public <U> Optional<U> map(Function<T, U> change) {
        return value == null ? Optional.<U>empty() : Optional.<U>ofNullable(change.apply(value));
    }

    public Optional<T> filter(Predicate<T> test) {
        return value == null || test.test(value) ? this : Optional.<T>empty();
    }

    public String toString() {
        return value == null ? "Optional.empty" : "Optional[" + value + "]";
    }

    public <X extends Throwable> T orElseThrow(Supplier<? extends X> make) throws X {
        if (value == null) {
            throw make.get();
        }
        return value;
    }

    public void ifPresentOrElse(Consumer<T> action, Runnable other) {
        if (value != null) {
            action.accept(value);
        } else {
            other.run();
        }
    }

    public <U> Optional<U> flatMap(Function<T, Optional<U>> change) {
        return value == null ? Optional.<U>empty() : change.apply(value);
    }

    public Optional<T> or(Supplier<Optional<T>> other) {
        return value != null ? this : other.get();
    }

    public Stream<T> stream() {
        List<T> all = new ArrayList<>();
        if (value != null) {
            all.add(value);
        }
        return Stream.<T>over(all.iterator());
    }

    public boolean equals(Object other) {
        return other instanceof Optional && Objects.equals(value, ((Optional<T>) other).value);
    }

    public int hashCode() {
        return Objects.hashCode(value);
    }
}
