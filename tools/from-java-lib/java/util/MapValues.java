package java.util;

/** What a map has, as a collection that goes with it. */
final class MapValues<K, V> extends AbstractCollection<V> {
    AbstractMap<K, V> map;

    public int size() {
        return map.size();
    }

    public Iterator<V> iterator() {
        MapValuesWalk<K, V> walk = new MapValuesWalk<>();
        walk.map = map;
        walk.at = map.firstEntryOf();
        walk.size = map.size();
        return walk;
    }
}
