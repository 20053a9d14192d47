package java.util;

/** A key with its value; `next` goes on in the bucket, `after` and `before` in the order of a linked map. */
final class MapEntry<K, V> implements Map.Entry<K, V> {
    K key;
    V value;
    int hash;
    MapEntry<K, V> next;
    MapEntry<K, V> after;
    MapEntry<K, V> before;

    public K getKey() {
        return key;
    }

    public V getValue() {
        return value;
    }

    public V setValue(V with) {
        V old = value;
        value = with;
        return old;
    }

    public boolean equals(Object other) {
        if (!(other instanceof MapEntry)) {
            return false;
        }
        MapEntry<K, V> entry = (MapEntry<K, V>) other;
        return Objects.equals(key, entry.key) && Objects.equals(value, entry.value);
    }

    public int hashCode() {
        return Objects.hashCode(key) ^ Objects.hashCode(value);
    }

    public String toString() {
        return key + "=" + value;
    }
}
