package java.util;

/** A map through which another is read. */
final class UnmodifiableMap<K, V> extends AbstractMap<K, V> {
    AbstractMap<K, V> map;

    MapEntry<K, V> find(K key) {
        return map.find(key);
    }

    MapEntry<K, V> take(K key) {
        throw new UnsupportedOperationException();
    }

    MapEntry<K, V> insert(K key) {
        throw new UnsupportedOperationException();
    }

    MapEntry<K, V> firstEntryOf() {
        return map.firstEntryOf();
    }

    MapEntry<K, V> entryAfter(MapEntry<K, V> entry) {
        return map.entryAfter(entry);
    }

    public int size() {
        return map.size();
    }

    public V get(K key) {
        return map.get(key);
    }

    public void clear() {
        throw new UnsupportedOperationException();
    }

    public void replaceAll(java.util.function.BiFunction<K, V, V> change) {
        throw new UnsupportedOperationException();
    }

    public V replace(K key, V value) {
        throw new UnsupportedOperationException();
    }
}
