package java.util;

/** What a map has, as a collection that goes with it. */
final class MapKeys<K, V> extends AbstractSet<K> {
    AbstractMap<K, V> map;

    public int size() {
        return map.size();
    }

    public boolean contains(K key) {
        return map.containsKey(key);
    }

    public boolean remove(K key) {
        return map.take(key) != null;
    }

    public Iterator<K> iterator() {
        MapKeysWalk<K, V> walk = new MapKeysWalk<>();
        walk.map = map;
        walk.at = map.firstEntryOf();
        walk.size = map.size();
        return walk;
    }
}
