import java.util.*;

public class Sorted {
    static class Cache<K, V> extends LinkedHashMap<K, V> {
        private final int maxEntries;

        Cache(int maxEntries) {
            super(16, 0.75f, true);
            this.maxEntries = maxEntries;
        }

        @Override
        protected boolean removeEldestEntry(Map.Entry<K, V> eldest) {
            return size() > maxEntries;
        }
    }

    public static void main(String[] args) {
        Cache<String, Integer> cache = new Cache<>(3);
        cache.put("a", 1);
        cache.put("b", 2);
        cache.put("c", 3);
        cache.get("a");
        cache.put("d", 4);
        System.out.println(cache);
        System.out.println(cache.containsKey("b") + " " + cache.getOrDefault("zz", -1));
        for (Map.Entry<String, Integer> e : cache.entrySet()) System.out.print(e.getKey() + e.getValue() + " ");
        System.out.println();
        Map<Integer, String> memo = new HashMap<>(32, 0.75f);
        for (int i = 0; i < 20; i += 3) memo.put(i * 37 % 50, "v" + i);
        System.out.println(memo);
        NavigableMap<Integer, String> grades = new TreeMap<>(Map.of(90, "A", 80, "B", 70, "C", 60, "D", 0, "F"));
        for (int score : new int[] {95, 85, 70, 69, 3}) System.out.print(grades.floorEntry(score).getValue());
        System.out.println(" " + grades.descendingMap() + " " + grades.headMap(70) + " " + grades.tailMap(80, false));
        SortedSet<String> names = new TreeSet<>(List.of("mia", "bob", "zoe", "al"));
        System.out.println(names.first() + " " + names.headSet("c") + " " + ((TreeSet<String>) names).descendingSet());
        Deque<Integer> window = new LinkedList<>();
        int[] data = {1, 3, -1, -3, 5, 3, 6, 7};
        List<Integer> maxima = new ArrayList<>();
        for (int i = 0; i < data.length; i++) {
            while (!window.isEmpty() && data[window.peekLast()] <= data[i]) window.pollLast();
            window.offerLast(i);
            if (window.peekFirst() <= i - 3) window.pollFirst();
            if (i >= 2) maxima.add(data[window.peekFirst()]);
        }
        System.out.println(maxima);
        ListIterator<Integer> it = maxima.listIterator();
        while (it.hasNext()) {
            int v = it.next();
            if (v == 3) it.set(33);
            else if (v == 6) it.remove();
            else if (v == 7) it.add(77);
        }
        System.out.println(maxima + " " + Collections.max(maxima) + " " + Collections.frequency(maxima, 33));
    }
}
