package java.util;

public final class Collections {
    public static <T extends Comparable<? super T>> void sort(List<T> list) {
        list.sort(null);
    }

    public static <T> void sort(List<T> list, Comparator<? super T> order) {
        list.sort(order);
    }

    public static <T> void reverse(List<T> list) {
        int last = list.size() - 1;
        for (int k = 0; k < last - k; k++) {
            swap(list, k, last - k);
        }
    }

    public static <T> void shuffle(List<T> list) {
        shuffle(list, new Random(0));
    }

    public static <T> void shuffle(List<T> list, Random random) {
        for (int k = list.size(); k > 1; k--) {
            swap(list, k - 1, random.nextInt(k));
        }
    }

    public static <T> void swap(List<T> list, int one, int other) {
        T kept = list.get(one);
        list.set(one, list.get(other));
        list.set(other, kept);
    }

    public static <T extends Comparable<? super T>> T max(Collection<T> all) {
        Iterator<T> at = all.iterator();
        T most = at.next();
        while (at.hasNext()) {
            T next = at.next();
            if (next.compareTo(most) > 0) {
                most = next;
            }
        }
        return most;
    }

    public static <T extends Comparable<? super T>> T min(Collection<T> all) {
        Iterator<T> at = all.iterator();
        T least = at.next();
        while (at.hasNext()) {
            T next = at.next();
            if (next.compareTo(least) < 0) {
                least = next;
            }
        }
        return least;
    }

    public static <T> T max(Collection<T> all, Comparator<? super T> order) {
        Comparator<T> by = (Comparator<T>) order;
        Iterator<T> at = all.iterator();
        T most = at.next();
        while (at.hasNext()) {
            T next = at.next();
            if (by.compare(next, most) > 0) {
                most = next;
            }
        }
        return most;
    }

    public static <T> T min(Collection<T> all, Comparator<? super T> order) {
        Comparator<T> by = (Comparator<T>) order;
        Iterator<T> at = all.iterator();
        T least = at.next();
        while (at.hasNext()) {
            T next = at.next();
            if (by.compare(next, least) < 0) {
                least = next;
            }
        }
        return least;
    }

    public static <T> int frequency(Collection<T> all, T element) {
        int count = 0;
        for (T one : all) {
            if (Objects.equals(one, element)) {
                count++;
            }
        }
        return count;
    }

    public static <T> boolean addAll(Collection<T> to, T... elements) {
        boolean changed = false;
        for (T one : elements) {
            if (to.add(one)) {
                changed = true;
            }
        }
        return changed;
    }

    public static <T extends Comparable<? super T>> Comparator<T> reverseOrder() {
        return Comparator.reverseOrder();
    }

    public static <T> List<T> emptyList() {
        ImmutableList<T> made = new ImmutableList<>();
        made.items = (T[]) new Object[0];
        return made;
    }

    public static <T> List<T> unmodifiableList(List<T> list) {
        UnmodifiableList<T> made = new UnmodifiableList<>();
        made.list = list;
        return made;
    }

    public static <T> List<T> nCopies(int count, T element) {
        ImmutableList<T> made = new ImmutableList<>();
        made.items = (T[]) new Object[count];
        for (int k = 0; k < count; k++) {
            made.items[k] = element;
        }
        return made;
    }

    public static <T> Comparator<T> reverseOrder(Comparator<T> order) {
        return order.reversed();
    }

    public static <T> Set<T> emptySet() {
        return unmodifiableSet(new HashSet<T>());
    }

    public static <K, V> Map<K, V> emptyMap() {
        return unmodifiableMap(new HashMap<K, V>());
    }

    public static <T> Iterator<T> emptyIterator() {
        return new ArrayList<T>().iterator();
    }

    public static <T> Set<T> singleton(T element) {
        Set<T> all = new HashSet<>();
        all.add(element);
        return unmodifiableSet(all);
    }

    public static <T> List<T> singletonList(T element) {
        return nCopies(1, element);
    }

    public static <K, V> Map<K, V> singletonMap(K key, V value) {
        Map<K, V> all = new HashMap<>();
        all.put(key, value);
        return unmodifiableMap(all);
    }

    public static <T> Collection<T> unmodifiableCollection(Collection<T> all) {
        UnmodifiableCollection<T> made = new UnmodifiableCollection<>();
        made.all = all;
        return made;
    }

    public static <T> Set<T> unmodifiableSet(Set<T> all) {
        UnmodifiableSet<T> made = new UnmodifiableSet<>();
        made.all = all;
        return made;
    }

    public static <T> Set<T> unmodifiableSortedSet(Set<T> all) {
        return unmodifiableSet(all);
    }

    public static <K, V> Map<K, V> unmodifiableMap(Map<K, V> map) {
        UnmodifiableMap<K, V> made = new UnmodifiableMap<>();
        made.map = (AbstractMap<K, V>) map;
        return made;
    }

    public static <K, V> Map<K, V> unmodifiableSortedMap(Map<K, V> map) {
        return unmodifiableMap(map);
    }

    public static <T> List<T> synchronizedList(List<T> list) {
        return list;
    }

    public static <K, V> Map<K, V> synchronizedMap(Map<K, V> map) {
        return map;
    }

    public static <T> void fill(List<T> list, T element) {
        for (int k = 0; k < list.size(); k++) {
            list.set(k, element);
        }
    }

    public static <T> void copy(List<T> to, List<T> from) {
        if (from.size() > to.size()) {
            throw new IndexOutOfBoundsException("Source does not fit in dest");
        }
        for (int k = 0; k < from.size(); k++) {
            to.set(k, from.get(k));
        }
    }

    public static <T> boolean disjoint(Collection<T> one, Collection<T> other) {
        for (T element : one) {
            if (other.contains(element)) {
                return false;
            }
        }
        return true;
    }

    public static <T> void rotate(List<T> list, int by) {
        int size = list.size();
        List<T> old = new ArrayList<>(list);
        for (int k = 0; k < size; k++) {
            list.set(Math.floorMod(k + by, size), old.get(k));
        }
    }

    public static <T> boolean replaceAll(List<T> list, T old, T element) {
        boolean changed = false;
        for (int k = 0; k < list.size(); k++) {
            if (Objects.equals(list.get(k), old)) {
                list.set(k, element);
                changed = true;
            }
        }
        return changed;
    }

    public static <T extends Comparable<? super T>> int binarySearch(List<T> list, T key) {
        int low = 0;
        int high = list.size() - 1;
        while (low <= high) {
            int middle = (low + high) >>> 1;
            int order = list.get(middle).compareTo(key);
            if (order == 0) {
                return middle;
            }
            low = order < 0 ? middle + 1 : low;
            high = order < 0 ? high : middle - 1;
        }
        return -(low + 1);
    }

    public static <T> int binarySearch(List<T> list, T key, Comparator<? super T> by) {
        Comparator<T> comparator = (Comparator<T>) by;
        int low = 0;
        int high = list.size() - 1;
        while (low <= high) {
            int middle = (low + high) >>> 1;
            int order = comparator.compare(list.get(middle), key);
            if (order == 0) {
                return middle;
            }
            low = order < 0 ? middle + 1 : low;
            high = order < 0 ? high : middle - 1;
        }
        return -(low + 1);
    }
}
