package java.util;

public abstract class AbstractSet<E> extends AbstractCollection<E> implements Set<E> {
    public boolean equals(Object other) {
        if (!(other instanceof AbstractSet)) {
            return false;
        }
        AbstractSet<E> set = (AbstractSet<E>) other;
        return set.size() == size() && containsAll(set);
    }

    public int hashCode() {
        int hash = 0;
        for (E one : this) {
            hash += Objects.hashCode(one);
        }
        return hash;
    }
}
