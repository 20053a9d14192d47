package java.util;

import java.util.function.IntConsumer;
import java.util.function.IntSupplier;
import java.util.function.Supplier;

public final class OptionalInt {
    private int value;
    private boolean there;

    public static OptionalInt empty() {
        return new OptionalInt();
    }

    public static OptionalInt of(int value) {
        OptionalInt made = new OptionalInt();
        made.value = value;
        made.there = true;
        return made;
    }

    public boolean isPresent() {
        return there;
    }

    public boolean isEmpty() {
        return !there;
    }

    public int getAsInt() {
        if (!there) {
            throw new NoSuchElementException("No value present");
        }
        return value;
    }

    public int orElse(int other) {
        return there ? value : other;
    }

    public int orElseThrow() {
        return getAsInt();
    }

    public String toString() {
        return there ? "OptionalInt[" + value + "]" : "OptionalInt.empty";
    }

    public <X extends Throwable> int orElseThrow(Supplier<? extends X> make) throws X {
        if (!there) {
            throw make.get();
        }
        return value;
    }

    public int orElseGet(IntSupplier other) {
        return there ? value : other.getAsInt();
    }

    public void ifPresent(IntConsumer action) {
        if (there) {
            action.accept(value);
        }
    }

    public void ifPresentOrElse(IntConsumer action, Runnable other) {
        if (there) {
            action.accept(value);
        } else {
            other.run();
        }
    }

    public boolean equals(Object other) {
        return other instanceof OptionalInt && ((OptionalInt) other).there == there
            && ((OptionalInt) other).value == value;
    }

    public int hashCode() {
        return there ? value : 0;
    }
}
