package java.util;

public class HashSet<E> extends AbstractSet<E> {
    HashMap<E, Boolean> map = newMap();

    public HashSet() {
    }

    public HashSet(int capacity) {
        map.reserve(capacity);
    }

    public HashSet(int capacity, float load) {
        this(capacity);
    }

    public HashSet(Collection<? extends E> from) {
        int wanted = from.size() * 4 / 3 + 1;
        map.reserve(wanted < 16 ? 16 : wanted);
        addAll(from);
    }

    HashMap<E, Boolean> newMap() {
        return new HashMap<>();
    }

    public int size() {
        return map.size();
    }

    public boolean contains(E element) {
        return map.find(element) != null;
    }

    public boolean add(E element) {
        int before = map.size();
        map.insert(element);
        return map.size() > before;
    }

    public boolean remove(E element) {
        return map.take(element) != null;
    }

    public void clear() {
        map.clear();
    }

    public Iterator<E> iterator() {
        return map.keySet().iterator();
    }
}
