package java.util;

public class LinkedHashSet<E> extends HashSet<E> {
    public LinkedHashSet() {
    }

    public LinkedHashSet(int capacity) {
    }

    public LinkedHashSet(Collection<? extends E> from) {
        addAll(from);
    }

    HashMap<E, Boolean> newMap() {
        return new LinkedHashMap<>();
    }
}
