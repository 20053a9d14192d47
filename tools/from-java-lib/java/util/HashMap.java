package java.util;

/** Buckets and their order are those of the JDK. */
public class HashMap<K, V> extends AbstractMap<K, V> {
    private MapEntry<K, V>[] table;
    private int wanted = 16;
    private int count;

    public HashMap() {
    }

    public HashMap(int capacity) {
        if (capacity < 0) {
            throw new IllegalArgumentException("Illegal initial capacity: " + capacity);
        }
        reserve(capacity);
    }

    public HashMap(int capacity, float load) {
        this(capacity);
    }

    public HashMap(Map<K, V> from) {
        reserve(from.size() * 4 / 3 + 1);
        putAll(from);
    }

    void reserve(int capacity) {
        wanted = 1;
        while (wanted < capacity) {
            wanted = wanted * 2;
        }
    }

    public int size() {
        return count;
    }

    private int spread(K key) {
        int hash = key == null ? 0 : key.hashCode();
        return hash ^ (hash >>> 16);
    }

    MapEntry<K, V> find(K key) {
        if (table == null) {
            return null;
        }
        int hash = spread(key);
        MapEntry<K, V> at = table[hash & (table.length - 1)];
        while (at != null) {
            if (at.hash == hash && Objects.equals(key, at.key)) {
                return at;
            }
            at = at.next;
        }
        return null;
    }

    MapEntry<K, V> insert(K key) {
        MapEntry<K, V> known = find(key);
        if (known != null) {
            touched(known);
            return known;
        }
        if (table == null) {
            table = (MapEntry<K, V>[]) new MapEntry[wanted];
        }
        MapEntry<K, V> made = new MapEntry<>();
        made.key = key;
        made.hash = spread(key);
        putLast(table, made);
        linked(made);
        count++;
        if (count > table.length * 3 / 4) {
            grow();
        }
        return made;
    }

    private void putLast(MapEntry<K, V>[] into, MapEntry<K, V> entry) {
        int at = entry.hash & (into.length - 1);
        entry.next = null;
        if (into[at] == null) {
            into[at] = entry;
            return;
        }
        MapEntry<K, V> last = into[at];
        while (last.next != null) {
            last = last.next;
        }
        last.next = entry;
    }

    private void grow() {
        MapEntry<K, V>[] more = (MapEntry<K, V>[]) new MapEntry[table.length * 2];
        for (int k = 0; k < table.length; k++) {
            MapEntry<K, V> at = table[k];
            while (at != null) {
                MapEntry<K, V> next = at.next;
                putLast(more, at);
                at = next;
            }
        }
        table = more;
    }

    MapEntry<K, V> take(K key) {
        MapEntry<K, V> entry = find(key);
        if (entry == null) {
            return null;
        }
        int k = entry.hash & (table.length - 1);
        if (table[k] == entry) {
            table[k] = entry.next;
        } else {
            MapEntry<K, V> at = table[k];
            while (at.next != entry) {
                at = at.next;
            }
            at.next = entry.next;
        }
        count--;
        unlinked(entry);
        return entry;
    }

    public void clear() {
        if (table != null) {
            for (int k = 0; k < table.length; k++) {
                table[k] = null;
            }
        }
        count = 0;
    }

    MapEntry<K, V> firstEntryOf() {
        return table == null ? null : from(0);
    }

    private MapEntry<K, V> from(int bucket) {
        for (int k = bucket; k < table.length; k++) {
            if (table[k] != null) {
                return table[k];
            }
        }
        return null;
    }

    MapEntry<K, V> entryAfter(MapEntry<K, V> entry) {
        return entry.next != null ? entry.next : from((entry.hash & (table.length - 1)) + 1);
    }

    // what a linked map does more

    void linked(MapEntry<K, V> entry) {
    }

    void unlinked(MapEntry<K, V> entry) {
    }

    void touched(MapEntry<K, V> entry) {
    }
}
