package java.util;

/** The elements of a sorted set between two of them, from the first to the last or from the last to the first. */
final class SetPart<E> extends AbstractSet<E> implements NavigableSet<E> {
    NavigableMap<E, Boolean> map;

    public int size() {
        return map.size();
    }

    public boolean contains(E element) {
        return map.containsKey(element);
    }

    public boolean add(E element) {
        int before = map.size();
        map.put(element, true);
        return map.size() > before;
    }

    public boolean remove(E element) {
        int before = map.size();
        map.remove(element);
        return map.size() < before;
    }

    public void clear() {
        map.clear();
    }

    public Iterator<E> iterator() {
        return map.keySet().iterator();
    }

    public E first() {
        return map.firstKey();
    }

    public E last() {
        return map.lastKey();
    }

    public E floor(E element) {
        return map.floorKey(element);
    }

    public E ceiling(E element) {
        return map.ceilingKey(element);
    }

    public E lower(E element) {
        return map.lowerKey(element);
    }

    public E higher(E element) {
        return map.higherKey(element);
    }

    public E pollFirst() {
        Map.Entry<E, Boolean> first = map.pollFirstEntry();
        return first == null ? null : first.getKey();
    }

    public E pollLast() {
        Map.Entry<E, Boolean> last = map.pollLastEntry();
        return last == null ? null : last.getKey();
    }

    private NavigableSet<E> part(NavigableMap<E, Boolean> of) {
        SetPart<E> part = new SetPart<>();
        part.map = of;
        return part;
    }

    public Iterator<E> descendingIterator() {
        return map.descendingMap().keySet().iterator();
    }

    public NavigableSet<E> descendingSet() {
        return part(map.descendingMap());
    }

    public NavigableSet<E> headSet(E end) {
        return part(map.headMap(end, false));
    }

    public NavigableSet<E> tailSet(E first) {
        return part(map.tailMap(first, true));
    }

    public NavigableSet<E> subSet(E first, E end) {
        return part(map.subMap(first, true, end, false));
    }

    public NavigableSet<E> headSet(E end, boolean closed) {
        return part(map.headMap(end, closed));
    }

    public NavigableSet<E> tailSet(E first, boolean closed) {
        return part(map.tailMap(first, closed));
    }

    public NavigableSet<E> subSet(E first, boolean closed, E end, boolean endClosed) {
        return part(map.subMap(first, closed, end, endClosed));
    }
}
