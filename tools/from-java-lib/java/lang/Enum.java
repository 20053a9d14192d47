package java.lang;

public abstract class Enum<E extends Enum<E>> implements Comparable<E> {
    String name;
    int ordinal;

    protected Enum(String name, int ordinal) {
    }

    public final String name() {
        return name;
    }

    public final int ordinal() {
        return ordinal;
    }

    public String toString() {
        return name;
    }

    public final int compareTo(E other) {
        return ordinal - ((Enum<E>) other).ordinal;
    }

    /** Whether it is that constant; what a switch asks. */
    public final boolean is(E other) {
        return this == other;
    }
}
