package java.util;

public interface NavigableMap<K, V> extends SortedMap<K, V> {
    Map.Entry<K, V> firstEntry();

    Map.Entry<K, V> lastEntry();

    Map.Entry<K, V> pollFirstEntry();

    Map.Entry<K, V> pollLastEntry();

    Map.Entry<K, V> floorEntry(K key);

    Map.Entry<K, V> ceilingEntry(K key);

    Map.Entry<K, V> lowerEntry(K key);

    Map.Entry<K, V> higherEntry(K key);

    K floorKey(K key);

    K ceilingKey(K key);

    K lowerKey(K key);

    K higherKey(K key);

    Set<K> navigableKeySet();

    Set<K> descendingKeySet();

    NavigableMap<K, V> descendingMap();

    NavigableMap<K, V> headMap(K end, boolean closed);

    NavigableMap<K, V> tailMap(K first, boolean closed);

    NavigableMap<K, V> subMap(K first, boolean closed, K end, boolean endClosed);
}
