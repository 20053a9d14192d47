package java.util;

/** What a map has, as a collection that goes with it. */
final class MapEntries<K, V> extends AbstractSet<Map.Entry<K, V>> {
    AbstractMap<K, V> map;

    public int size() {
        return map.size();
    }

    public Iterator<Map.Entry<K, V>> iterator() {
        MapEntriesWalk<K, V> walk = new MapEntriesWalk<>();
        walk.map = map;
        walk.at = map.firstEntryOf();
        walk.size = map.size();
        return walk;
    }
}
