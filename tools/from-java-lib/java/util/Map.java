package java.util;

import java.util.function.BiConsumer;
import java.util.function.BiFunction;
import java.util.function.Function;

public interface Map<K, V> {
    int size();

    boolean isEmpty();

    V get(K key);

    V put(K key, V value);

    V remove(K key);

    boolean containsKey(K key);

    boolean containsValue(V value);

    V getOrDefault(K key, V value);

    V putIfAbsent(K key, V value);

    void putAll(Map<K, V> other);

    void clear();

    Set<K> keySet();

    Collection<V> values();

    Set<Map.Entry<K, V>> entrySet();

    V computeIfAbsent(K key, Function<K, V> make);

    V computeIfPresent(K key, BiFunction<K, V, V> make);

    V compute(K key, BiFunction<K, V, V> make);

    V merge(K key, V value, BiFunction<V, V, V> join);

    void forEach(BiConsumer<K, V> action);

    void replaceAll(BiFunction<K, V, V> change);

    V replace(K key, V value);

    boolean replace(K key, V old, V value);

    boolean remove(K key, V value);

    // maps that do not change, in the order in which they are given, where the JDK has one that changes from run to run

    private static <K, V> void put(LinkedHashMap<K, V> all, K key, V value) {
        if (key == null || value == null) {
            throw new NullPointerException();
        }
        if (all.containsKey(key)) {
            throw new IllegalArgumentException("duplicate key: " + key);
        }
        all.put(key, value);
    }

    static <K, V> Map<K, V> of() {
        LinkedHashMap<K, V> all = new LinkedHashMap<>();
        return Collections.unmodifiableMap(all);
    }

    static <K, V> Map<K, V> of(K k1, V v1) {
        LinkedHashMap<K, V> all = new LinkedHashMap<>();
        put(all, k1, v1);
        return Collections.unmodifiableMap(all);
    }

    static <K, V> Map<K, V> of(K k1, V v1, K k2, V v2) {
        LinkedHashMap<K, V> all = new LinkedHashMap<>();
        put(all, k1, v1);
        put(all, k2, v2);
        return Collections.unmodifiableMap(all);
    }

    static <K, V> Map<K, V> of(K k1, V v1, K k2, V v2, K k3, V v3) {
        LinkedHashMap<K, V> all = new LinkedHashMap<>();
        put(all, k1, v1);
        put(all, k2, v2);
        put(all, k3, v3);
        return Collections.unmodifiableMap(all);
    }

    static <K, V> Map<K, V> of(K k1, V v1, K k2, V v2, K k3, V v3, K k4, V v4) {
        LinkedHashMap<K, V> all = new LinkedHashMap<>();
        put(all, k1, v1);
        put(all, k2, v2);
        put(all, k3, v3);
        put(all, k4, v4);
        return Collections.unmodifiableMap(all);
    }

    static <K, V> Map<K, V> of(K k1, V v1, K k2, V v2, K k3, V v3, K k4, V v4, K k5, V v5) {
        LinkedHashMap<K, V> all = new LinkedHashMap<>();
        put(all, k1, v1);
        put(all, k2, v2);
        put(all, k3, v3);
        put(all, k4, v4);
        put(all, k5, v5);
        return Collections.unmodifiableMap(all);
    }

    static <K, V> Map<K, V> of(K k1, V v1, K k2, V v2, K k3, V v3, K k4, V v4, K k5, V v5, K k6, V v6) {
        LinkedHashMap<K, V> all = new LinkedHashMap<>();
        put(all, k1, v1);
        put(all, k2, v2);
        put(all, k3, v3);
        put(all, k4, v4);
        put(all, k5, v5);
        put(all, k6, v6);
        return Collections.unmodifiableMap(all);
    }

    static <K, V> Map<K, V> of(K k1, V v1, K k2, V v2, K k3, V v3, K k4, V v4, K k5, V v5, K k6, V v6, K k7, V v7) {
        LinkedHashMap<K, V> all = new LinkedHashMap<>();
        put(all, k1, v1);
        put(all, k2, v2);
        put(all, k3, v3);
        put(all, k4, v4);
        put(all, k5, v5);
        put(all, k6, v6);
        put(all, k7, v7);
        return Collections.unmodifiableMap(all);
    }

    static <K, V> Map<K, V> of(K k1, V v1, K k2, V v2, K k3, V v3, K k4, V v4, K k5, V v5, K k6, V v6, K k7, V v7,
        K k8, V v8) {
        LinkedHashMap<K, V> all = new LinkedHashMap<>();
        put(all, k1, v1);
        put(all, k2, v2);
        put(all, k3, v3);
        put(all, k4, v4);
        put(all, k5, v5);
        put(all, k6, v6);
        put(all, k7, v7);
        put(all, k8, v8);
        return Collections.unmodifiableMap(all);
    }

    static <K, V> Map<K, V> of(K k1, V v1, K k2, V v2, K k3, V v3, K k4, V v4, K k5, V v5, K k6, V v6, K k7, V v7,
        K k8, V v8, K k9, V v9) {
        LinkedHashMap<K, V> all = new LinkedHashMap<>();
        put(all, k1, v1);
        put(all, k2, v2);
        put(all, k3, v3);
        put(all, k4, v4);
        put(all, k5, v5);
        put(all, k6, v6);
        put(all, k7, v7);
        put(all, k8, v8);
        put(all, k9, v9);
        return Collections.unmodifiableMap(all);
    }

    static <K, V> Map<K, V> of(K k1, V v1, K k2, V v2, K k3, V v3, K k4, V v4, K k5, V v5, K k6, V v6, K k7, V v7,
        K k8, V v8, K k9, V v9, K k10, V v10) {
        LinkedHashMap<K, V> all = new LinkedHashMap<>();
        put(all, k1, v1);
        put(all, k2, v2);
        put(all, k3, v3);
        put(all, k4, v4);
        put(all, k5, v5);
        put(all, k6, v6);
        put(all, k7, v7);
        put(all, k8, v8);
        put(all, k9, v9);
        put(all, k10, v10);
        return Collections.unmodifiableMap(all);
    }

    static <K, V> Map<K, V> ofEntries(Map.Entry<K, V>... entries) {
        LinkedHashMap<K, V> all = new LinkedHashMap<>();
        for (Map.Entry<K, V> one : entries) {
            put(all, one.getKey(), one.getValue());
        }
        return Collections.unmodifiableMap(all);
    }

    static <K, V> Map<K, V> copyOf(Map<K, V> from) {
        return Collections.unmodifiableMap(new LinkedHashMap<K, V>(from));
    }

    static <K, V> Map.Entry<K, V> entry(K key, V value) {
        MapEntry<K, V> made = new MapEntry<>();
        made.key = Objects.requireNonNull(key);
        made.value = Objects.requireNonNull(value);
        return made;
    }

    interface Entry<K, V> {
        K getKey();

        V getValue();

        V setValue(V value);

        static <K extends Comparable<? super K>, V> Comparator<Map.Entry<K, V>> comparingByKey() {
            return (one, other) -> one.getKey().compareTo(other.getKey());
        }

        static <K, V extends Comparable<? super V>> Comparator<Map.Entry<K, V>> comparingByValue() {
            return (one, other) -> one.getValue().compareTo(other.getValue());
        }

        static <K, V> Comparator<Map.Entry<K, V>> comparingByKey(Comparator<? super K> order) {
            return (one, other) -> order.compare(one.getKey(), other.getKey());
        }

        static <K, V> Comparator<Map.Entry<K, V>> comparingByValue(Comparator<? super V> order) {
            return (one, other) -> order.compare(one.getValue(), other.getValue());
        }
    }
}
