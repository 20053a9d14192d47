package java.util;

import java.util.function.BiConsumer;
import java.util.function.BiFunction;
import java.util.function.Function;

public abstract class AbstractMap<K, V> implements Map<K, V> {
    /** The entry of a key, or null. */
    abstract MapEntry<K, V> find(K key);

    /** Takes the entry of a key out, and gives it, or null. */
    abstract MapEntry<K, V> take(K key);

    /** The entry of a key, a new one where there was none. */
    abstract MapEntry<K, V> insert(K key);

    /** The first entry in the map's order, or null. */
    abstract MapEntry<K, V> firstEntryOf();

    abstract MapEntry<K, V> entryAfter(MapEntry<K, V> entry);

    public boolean isEmpty() {
        return size() == 0;
    }

    public V get(K key) {
        MapEntry<K, V> entry = find(key);
        return entry == null ? null : entry.value;
    }

    public V getOrDefault(K key, V value) {
        MapEntry<K, V> entry = find(key);
        return entry == null ? value : entry.value;
    }

    public boolean containsKey(K key) {
        return find(key) != null;
    }

    public boolean containsValue(V value) {
        MapEntry<K, V> at = firstEntryOf();
        while (at != null) {
            if (Objects.equals(at.value, value)) {
                return true;
            }
            at = entryAfter(at);
        }
        return false;
    }

    public V put(K key, V value) {
        MapEntry<K, V> entry = insert(key);
        V old = entry.value;
        entry.value = value;
        return old;
    }

    public V putIfAbsent(K key, V value) {
        MapEntry<K, V> entry = insert(key);
        V old = entry.value;
        if (old == null) {
            entry.value = value;
        }
        return old;
    }

    public void putAll(Map<K, V> other) {
        for (Map.Entry<K, V> entry : other.entrySet()) {
            put(entry.getKey(), entry.getValue());
        }
    }

    public V remove(K key) {
        MapEntry<K, V> entry = take(key);
        return entry == null ? null : entry.value;
    }

    public V computeIfAbsent(K key, Function<K, V> make) {
        MapEntry<K, V> entry = find(key);
        if (entry != null && entry.value != null) {
            return entry.value;
        }
        V value = make.apply(key);
        if (value != null) {
            put(key, value);
        }
        return value;
    }

    public V computeIfPresent(K key, BiFunction<K, V, V> make) {
        MapEntry<K, V> entry = find(key);
        if (entry == null || entry.value == null) {
            return null;
        }
        return store(key, make.apply(key, entry.value));
    }

    public V compute(K key, BiFunction<K, V, V> make) {
        return store(key, make.apply(key, get(key)));
    }

    public V merge(K key, V value, BiFunction<V, V, V> join) {
        V old = get(key);
        return store(key, old == null ? value : join.apply(old, value));
    }

    private V store(K key, V value) {
        if (value == null) {
            take(key);
        } else {
            put(key, value);
        }
        return value;
    }

    public void forEach(BiConsumer<K, V> action) {
        MapEntry<K, V> at = firstEntryOf();
        while (at != null) {
            action.accept(at.key, at.value);
            at = entryAfter(at);
        }
    }

    public Set<K> keySet() {
        MapKeys<K, V> keys = new MapKeys<>();
        keys.map = this;
        return keys;
    }

    public Collection<V> values() {
        MapValues<K, V> values = new MapValues<>();
        values.map = this;
        return values;
    }

    public Set<Map.Entry<K, V>> entrySet() {
        MapEntries<K, V> entries = new MapEntries<>();
        entries.map = this;
        return entries;
    }

    public boolean equals(Object other) {
        if (!(other instanceof AbstractMap)) {
            return false;
        }
        AbstractMap<K, V> map = (AbstractMap<K, V>) other;
        if (map.size() != size()) {
            return false;
        }
        MapEntry<K, V> at = firstEntryOf();
        while (at != null) {
            MapEntry<K, V> same = map.find(at.key);
            if (same == null || !Objects.equals(at.value, same.value)) {
                return false;
            }
            at = entryAfter(at);
        }
        return true;
    }

    public int hashCode() {
        int hash = 0;
        MapEntry<K, V> at = firstEntryOf();
        while (at != null) {
            hash += at.hashCode();
            at = entryAfter(at);
        }
        return hash;
    }

    public String toString() {
        String text = "{";
        MapEntry<K, V> at = firstEntryOf();
        while (at != null) {
            text = text + at;
            at = entryAfter(at);
            if (at != null) {
                text = text + ", ";
            }
        }
        return text + "}";
    }

    public void replaceAll(BiFunction<K, V, V> change) {
        MapEntry<K, V> at = firstEntryOf();
        while (at != null) {
            at.value = change.apply(at.key, at.value);
            at = entryAfter(at);
        }
    }

    public V replace(K key, V value) {
        MapEntry<K, V> entry = find(key);
        return entry == null ? null : entry.setValue(value);
    }

    public boolean replace(K key, V old, V value) {
        MapEntry<K, V> entry = find(key);
        if (entry == null || !Objects.equals(entry.value, old)) {
            return false;
        }
        entry.value = value;
        return true;
    }

    public boolean remove(K key, V value) {
        MapEntry<K, V> entry = find(key);
        if (entry == null || !Objects.equals(entry.value, value)) {
            return false;
        }
        take(key);
        return true;
    }

    public static class SimpleEntry<K, V> implements Map.Entry<K, V> {
        private K key;
        private V value;

        public SimpleEntry(K key, V value) {
            this.key = key;
            this.value = value;
        }

        public K getKey() {
            return key;
        }

        public V getValue() {
            return value;
        }

        public V setValue(V with) {
            V old = value;
            value = with;
            return old;
        }

        public boolean equals(Object other) {
            return other instanceof Map.Entry && Objects.equals(key, ((Map.Entry<K, V>) other).getKey())
                && Objects.equals(value, ((Map.Entry<K, V>) other).getValue());
        }

        public int hashCode() {
            return Objects.hashCode(key) ^ Objects.hashCode(value);
        }

        public String toString() {
            return key + "=" + value;
        }
    }
}
