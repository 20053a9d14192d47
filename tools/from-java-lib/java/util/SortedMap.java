package java.util;

public interface SortedMap<K, V> extends Map<K, V> {
    K firstKey();

    K lastKey();

    NavigableMap<K, V> headMap(K end);

    NavigableMap<K, V> tailMap(K first);

    NavigableMap<K, V> subMap(K first, K end);
}
