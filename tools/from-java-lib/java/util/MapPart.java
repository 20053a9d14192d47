package java.util;

/** The entries of a sorted map between two keys, from the first to the last or from the last to the first. */
final class MapPart<K, V> extends AbstractMap<K, V> implements NavigableMap<K, V> {
    TreeMap<K, V> map;
    boolean descends;
    private K first;
    private K end;
    private boolean hasFirst;
    private boolean hasEnd;
    private boolean closed;
    private boolean endClosed;

    void begins(K key, boolean with) {
        first = key;
        hasFirst = true;
        closed = with;
    }

    void ends(K key, boolean with) {
        end = key;
        hasEnd = true;
        endClosed = with;
    }

    private MapPart<K, V> copy() {
        MapPart<K, V> part = new MapPart<>();
        part.map = map;
        part.descends = descends;
        part.first = first;
        part.end = end;
        part.hasFirst = hasFirst;
        part.hasEnd = hasEnd;
        part.closed = closed;
        part.endClosed = endClosed;
        return part;
    }

    private int low() {
        return !hasFirst ? 0 : closed ? map.place(first) : map.above(first);
    }

    private int high() {
        return !hasEnd ? map.size() : endClosed ? map.above(end) : map.place(end);
    }

    public int size() {
        int count = high() - low();
        return count < 0 ? 0 : count;
    }

    private MapEntry<K, V> within(int place) {
        return place >= low() && place < high() ? map.at(place) : null;
    }

    private boolean holds(K key) {
        int place = map.place(key);
        return place >= low() && (place < high() || !hasEnd || map.compare(key, end) < 0);
    }

    MapEntry<K, V> find(K key) {
        return holds(key) ? map.find(key) : null;
    }

    MapEntry<K, V> take(K key) {
        return holds(key) ? map.take(key) : null;
    }

    MapEntry<K, V> insert(K key) {
        if (!holds(key)) {
            throw new IllegalArgumentException("key out of range");
        }
        return map.insert(key);
    }

    MapEntry<K, V> firstEntryOf() {
        return within(descends ? high() - 1 : low());
    }

    private MapEntry<K, V> lastEntryOf() {
        return within(descends ? low() : high() - 1);
    }

    MapEntry<K, V> entryAfter(MapEntry<K, V> entry) {
        return step(entry.key, !descends, false);
    }

    /** The next entry above or below a key, or at it. */
    private MapEntry<K, V> step(K key, boolean up, boolean with) {
        int place = up ? with ? map.place(key) : map.above(key) : (with ? map.above(key) : map.place(key)) - 1;
        if (up && place < low()) {
            place = low();
        }
        if (!up && place >= high()) {
            place = high() - 1;
        }
        return within(place);
    }

    public void clear() {
        MapEntry<K, V> at = firstEntryOf();
        while (at != null) {
            map.take(at.key);
            at = firstEntryOf();
        }
    }

    private K key(Map.Entry<K, V> entry) {
        return entry == null ? null : entry.getKey();
    }

    private K there(MapEntry<K, V> entry) {
        if (entry == null) {
            throw new NoSuchElementException();
        }
        return entry.key;
    }

    public K firstKey() {
        return there(firstEntryOf());
    }

    public K lastKey() {
        return there(lastEntryOf());
    }

    public Map.Entry<K, V> firstEntry() {
        return firstEntryOf();
    }

    public Map.Entry<K, V> lastEntry() {
        return lastEntryOf();
    }

    public Map.Entry<K, V> pollFirstEntry() {
        MapEntry<K, V> found = firstEntryOf();
        return found == null ? null : map.take(found.key);
    }

    public Map.Entry<K, V> pollLastEntry() {
        MapEntry<K, V> found = lastEntryOf();
        return found == null ? null : map.take(found.key);
    }

    public Map.Entry<K, V> floorEntry(K key) {
        return step(key, descends, true);
    }

    public Map.Entry<K, V> ceilingEntry(K key) {
        return step(key, !descends, true);
    }

    public Map.Entry<K, V> lowerEntry(K key) {
        return step(key, descends, false);
    }

    public Map.Entry<K, V> higherEntry(K key) {
        return step(key, !descends, false);
    }

    public K floorKey(K key) {
        return key(floorEntry(key));
    }

    public K ceilingKey(K key) {
        return key(ceilingEntry(key));
    }

    public K lowerKey(K key) {
        return key(lowerEntry(key));
    }

    public K higherKey(K key) {
        return key(higherEntry(key));
    }

    public Set<K> navigableKeySet() {
        return keySet();
    }

    public Set<K> descendingKeySet() {
        return descendingMap().keySet();
    }

    public NavigableMap<K, V> descendingMap() {
        MapPart<K, V> part = copy();
        part.descends = !descends;
        return part;
    }

    public NavigableMap<K, V> headMap(K key) {
        return headMap(key, false);
    }

    public NavigableMap<K, V> tailMap(K key) {
        return tailMap(key, true);
    }

    public NavigableMap<K, V> subMap(K key, K last) {
        return subMap(key, true, last, false);
    }

    public NavigableMap<K, V> headMap(K key, boolean with) {
        MapPart<K, V> part = copy();
        if (descends) {
            part.begins(key, with);
        } else {
            part.ends(key, with);
        }
        return part;
    }

    public NavigableMap<K, V> tailMap(K key, boolean with) {
        MapPart<K, V> part = copy();
        if (descends) {
            part.ends(key, with);
        } else {
            part.begins(key, with);
        }
        return part;
    }

    public NavigableMap<K, V> subMap(K key, boolean with, K last, boolean withLast) {
        return tailMap(key, with).headMap(last, withLast);
    }
}
