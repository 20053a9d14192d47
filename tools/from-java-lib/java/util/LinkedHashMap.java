package java.util;

public class LinkedHashMap<K, V> extends HashMap<K, V> {
    private MapEntry<K, V> first;
    private MapEntry<K, V> last;

    private boolean byAccess;

    public LinkedHashMap() {
    }

    public LinkedHashMap(int capacity) {
        super(capacity);
    }

    public LinkedHashMap(int capacity, float load) {
        super(capacity);
    }

    /** In the order in which entries were put, or that in which they were asked for. */
    public LinkedHashMap(int capacity, float load, boolean byAccess) {
        super(capacity);
        this.byAccess = byAccess;
    }

    public LinkedHashMap(Map<K, V> from) {
        putAll(from);
    }

    void linked(MapEntry<K, V> entry) {
        entry.before = last;
        if (last == null) {
            first = entry;
        } else {
            last.after = entry;
        }
        last = entry;
    }

    void unlinked(MapEntry<K, V> entry) {
        if (entry.before == null) {
            first = entry.after;
        } else {
            entry.before.after = entry.after;
        }
        if (entry.after == null) {
            last = entry.before;
        } else {
            entry.after.before = entry.before;
        }
    }

    public void clear() {
        super.clear();
        first = null;
        last = null;
    }

    MapEntry<K, V> firstEntryOf() {
        return first;
    }

    MapEntry<K, V> entryAfter(MapEntry<K, V> entry) {
        return entry.after;
    }

    void touched(MapEntry<K, V> entry) {
        if (byAccess && entry != last) {
            unlinked(entry);
            entry.after = null;
            linked(entry);
        }
    }

    public V get(K key) {
        MapEntry<K, V> entry = find(key);
        if (entry == null) {
            return null;
        }
        touched(entry);
        return entry.value;
    }

    public V getOrDefault(K key, V value) {
        MapEntry<K, V> entry = find(key);
        if (entry == null) {
            return value;
        }
        touched(entry);
        return entry.value;
    }

    protected boolean removeEldestEntry(Map.Entry<K, V> eldest) {
        return false;
    }

    public V put(K key, V value) {
        int before = size();
        V old = super.put(key, value);
        if (size() > before && removeEldestEntry(first)) {
            take(first.key);
        }
        return old;
    }
}
