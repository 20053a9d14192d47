package java.util;

import java.util.function.Supplier;

/** `equals`, `hashCode`, `hash` and `toString` are written out by the tool where they are called. */
public final class Objects {
    public static native boolean equals(Object one, Object other);

    public static native int hashCode(Object value);

    public static native int hash(Object... values);

    public static native String toString(Object value);

    public static <T> T requireNonNull(T value) {
        if (value == null) {
            throw new NullPointerException();
        }
        return value;
    }

    public static <T> T requireNonNull(T value, String message) {
        if (value == null) {
            throw new NullPointerException(message);
        }
        return value;
    }

    public static <T> boolean isNull(T value) {
        return value == null;
    }

    public static <T> boolean nonNull(T value) {
        return value != null;
    }

    public static native String toString(Object value, String none);

    public static <T> T requireNonNull(T value, Supplier<String> message) {
        if (value == null) {
            throw new NullPointerException(message.get());
        }
        return value;
    }

    public static <T> T requireNonNullElse(T value, T other) {
        return value != null ? value : requireNonNull(other, "defaultObj");
    }

    public static <T> T requireNonNullElseGet(T value, Supplier<? extends T> other) {
        return value != null ? value : requireNonNull(other.get(), "supplier.get()");
    }

    public static <T> int compare(T one, T other, Comparator<? super T> order) {
        return one == other ? 0 : order.compare(one, other);
    }

    public static int checkIndex(int index, int length) {
        if (index < 0 || index >= length) {
            throw new IndexOutOfBoundsException("Index " + index + " out of bounds for length " + length);
        }
        return index;
    }
}
