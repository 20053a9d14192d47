package java.util;

public interface Set<E> extends Collection<E> {
    /** The elements in the order in which they are given, where the JDK has one that changes from run to run. */
    static <E> Set<E> of(E... elements) {
        LinkedHashSet<E> all = new LinkedHashSet<>();
        for (E one : elements) {
            if (one == null) {
                throw new NullPointerException();
            }
            if (!all.add(one)) {
                throw new IllegalArgumentException("duplicate element: " + one);
            }
        }
        return Collections.unmodifiableSet(all);
    }

    static <E> Set<E> copyOf(Collection<? extends E> from) {
        return Collections.unmodifiableSet(new LinkedHashSet<E>(from));
    }
}
