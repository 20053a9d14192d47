package java.util;

/** The entries stand in an array in the order of their keys. */
public class TreeMap<K, V> extends AbstractMap<K, V> implements NavigableMap<K, V> {
    private MapEntry<K, V>[] entries = (MapEntry<K, V>[]) new MapEntry[8];
    private Comparator<? super K> order;
    private int count;

    public TreeMap() {
    }

    public TreeMap(Comparator<? super K> order) {
        this.order = order;
    }

    public TreeMap(Map<K, V> from) {
        putAll(from);
    }

    public int size() {
        return count;
    }

    int compare(K one, K other) {
        if (order != null) {
            return order.compare(one, other);
        }
        return ((Comparable<K>) one).compareTo(other);
    }

    /** The place of the first entry whose key is not below one. */
    int place(K key) {
        int low = 0;
        int high = count;
        while (low < high) {
            int middle = (low + high) / 2;
            if (compare(entries[middle].key, key) < 0) {
                low = middle + 1;
            } else {
                high = middle;
            }
        }
        return low;
    }

    private boolean isAt(int at, K key) {
        return at < count && compare(entries[at].key, key) == 0;
    }

    MapEntry<K, V> at(int place) {
        return place < 0 || place >= count ? null : entries[place];
    }

    MapEntry<K, V> find(K key) {
        int at = place(key);
        return isAt(at, key) ? entries[at] : null;
    }

    MapEntry<K, V> insert(K key) {
        int at = place(key);
        if (isAt(at, key)) {
            return entries[at];
        }
        if (count == 0) {
            compare(key, key);
        }
        if (count == entries.length) {
            MapEntry<K, V>[] more = (MapEntry<K, V>[]) new MapEntry[2 * count];
            for (int k = 0; k < count; k++) {
                more[k] = entries[k];
            }
            entries = more;
        }
        for (int k = count; k > at; k--) {
            entries[k] = entries[k - 1];
        }
        MapEntry<K, V> made = new MapEntry<>();
        made.key = key;
        entries[at] = made;
        count++;
        return made;
    }

    MapEntry<K, V> take(K key) {
        int at = place(key);
        if (!isAt(at, key)) {
            return null;
        }
        MapEntry<K, V> old = entries[at];
        for (int k = at; k + 1 < count; k++) {
            entries[k] = entries[k + 1];
        }
        count--;
        entries[count] = null;
        return old;
    }

    public void clear() {
        for (int k = 0; k < count; k++) {
            entries[k] = null;
        }
        count = 0;
    }

    MapEntry<K, V> firstEntryOf() {
        return at(0);
    }

    MapEntry<K, V> entryAfter(MapEntry<K, V> entry) {
        int at = place(entry.key);
        return at(isAt(at, entry.key) ? at + 1 : at);
    }

    private K key(MapEntry<K, V> entry) {
        return entry == null ? null : entry.key;
    }

    private K there(MapEntry<K, V> entry) {
        if (entry == null) {
            throw new NoSuchElementException();
        }
        return entry.key;
    }

    public K firstKey() {
        return there(at(0));
    }

    public K lastKey() {
        return there(at(count - 1));
    }

    public Map.Entry<K, V> firstEntry() {
        return at(0);
    }

    public Map.Entry<K, V> lastEntry() {
        return at(count - 1);
    }

    public Map.Entry<K, V> pollFirstEntry() {
        MapEntry<K, V> first = at(0);
        return first == null ? null : take(first.key);
    }

    public Map.Entry<K, V> pollLastEntry() {
        MapEntry<K, V> last = at(count - 1);
        return last == null ? null : take(last.key);
    }

    int above(K key) {
        int at = place(key);
        return isAt(at, key) ? at + 1 : at;
    }

    public Map.Entry<K, V> floorEntry(K key) {
        return at(above(key) - 1);
    }

    public Map.Entry<K, V> ceilingEntry(K key) {
        return at(place(key));
    }

    public K floorKey(K key) {
        return key(at(above(key) - 1));
    }

    public K ceilingKey(K key) {
        return key(at(place(key)));
    }

    public K lowerKey(K key) {
        return key(at(place(key) - 1));
    }

    public K higherKey(K key) {
        return key(at(above(key)));
    }

    public Map.Entry<K, V> lowerEntry(K key) {
        return at(place(key) - 1);
    }

    public Map.Entry<K, V> higherEntry(K key) {
        return at(above(key));
    }

    public Set<K> navigableKeySet() {
        return keySet();
    }

    public Set<K> descendingKeySet() {
        return descendingMap().keySet();
    }

    private MapPart<K, V> part() {
        MapPart<K, V> part = new MapPart<>();
        part.map = this;
        return part;
    }

    public NavigableMap<K, V> descendingMap() {
        MapPart<K, V> part = part();
        part.descends = true;
        return part;
    }

    public NavigableMap<K, V> headMap(K end) {
        return headMap(end, false);
    }

    public NavigableMap<K, V> tailMap(K first) {
        return tailMap(first, true);
    }

    public NavigableMap<K, V> subMap(K first, K end) {
        return subMap(first, true, end, false);
    }

    public NavigableMap<K, V> headMap(K end, boolean closed) {
        MapPart<K, V> part = part();
        part.ends(end, closed);
        return part;
    }

    public NavigableMap<K, V> tailMap(K first, boolean closed) {
        MapPart<K, V> part = part();
        part.begins(first, closed);
        return part;
    }

    public NavigableMap<K, V> subMap(K first, boolean closed, K end, boolean endClosed) {
        if (compare(first, end) > 0) {
            throw new IllegalArgumentException("fromKey > toKey");
        }
        MapPart<K, V> part = part();
        part.begins(first, closed);
        part.ends(end, endClosed);
        return part;
    }
}
