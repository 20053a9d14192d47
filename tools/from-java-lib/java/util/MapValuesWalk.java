package java.util;

final class MapValuesWalk<K, V> implements Iterator<V> {
    AbstractMap<K, V> map;
    MapEntry<K, V> at;
    MapEntry<K, V> last;
    int size;

    public boolean hasNext() {
        return at != null;
    }

    public V next() {
        if (map.size() != size) {
            throw new ConcurrentModificationException();
        }
        if (at == null) {
            throw new NoSuchElementException();
        }
        last = at;
        at = map.entryAfter(at);
        return last.value;
    }

    public void remove() {
        if (last == null) {
            throw new IllegalStateException();
        }
        map.take(last.key);
        last = null;
        size--;
    }
}
