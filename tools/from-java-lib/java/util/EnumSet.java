package java.util;

/** A set in the order of an enum's constants; where a class is given, its constants stand in its place. */
public class EnumSet<E extends Enum<E>> extends TreeSet<E> {
    public static <E extends Enum<E>> EnumSet<E> of(E first, E... rest) {
        EnumSet<E> made = new EnumSet<>();
        made.add(first);
        for (E one : rest) {
            made.add(one);
        }
        return made;
    }

    public static <E extends Enum<E>> EnumSet<E> noneOf(Class<E> kind) {
        return new EnumSet<>();
    }

    public static <E extends Enum<E>> EnumSet<E> allOf(Class<E> kind) {
        return new EnumSet<>();
    }

    /** `allOf` with the constants of the class. */
    public static <E extends Enum<E>> EnumSet<E> all(E[] constants) {
        EnumSet<E> made = new EnumSet<>();
        for (E one : constants) {
            made.add(one);
        }
        return made;
    }

    public static <E extends Enum<E>> EnumSet<E> copyOf(Collection<E> from) {
        EnumSet<E> made = new EnumSet<>();
        made.addAll(from);
        return made;
    }
}
