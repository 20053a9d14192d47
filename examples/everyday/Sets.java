import java.util.*;

/** What sets and maps do: union, difference, order of iteration, sorted views. */
public class Sets {
    static <T> Set<T> union(Set<T> a, Set<T> b) {
        Set<T> all = new HashSet<>(a);
        all.addAll(b);
        return all;
    }

    static <T> Set<T> common(Set<T> a, Set<T> b) {
        Set<T> both = new LinkedHashSet<>();
        for (T one : a) {
            if (b.contains(one)) both.add(one);
        }
        return both;
    }

    static <T extends Comparable<T>> T largest(Collection<T> all) {
        T most = null;
        for (T one : all) {
            if (most == null || one.compareTo(most) > 0) most = one;
        }
        return most;
    }

    static Map<String, List<String>> anagrams(String... words) {
        Map<String, List<String>> groups = new TreeMap<>();
        for (String word : words) {
            char[] letters = word.toCharArray();
            Arrays.sort(letters);
            String key = new StringBuilder().append(letters).toString();
            if (!groups.containsKey(key)) groups.put(key, new ArrayList<>());
            groups.get(key).add(word);
        }
        return groups;
    }

    public static void main(String[] args) {
        Set<String> a = new HashSet<>(Arrays.asList("pear", "apple", "fig", "date", "kiwi")), b = new HashSet<>();
        Collections.addAll(b, "fig", "plum", "pear", "grape", "lemon", "lime", "peach", "mango", "melon", "cherry");
        System.out.println(a);
        System.out.println(union(a, b));
        System.out.println(common(a, b) + " " + largest(union(a, b)));
        Set<Integer> numbers = new TreeSet<>();
        for (int i = 1; i <= 30; i++) numbers.add(i * i % 31);
        System.out.println(numbers + " " + numbers.size() + " " + largest(numbers));
        numbers.removeIf(n -> n % 2 == 0);
        Iterator<Integer> it = numbers.iterator();
        int sum = 0;
        while (it.hasNext()) {
            int n = it.next();
            if (n > 10) it.remove();
            else sum += n;
        }
        System.out.println(numbers + " " + sum);
        for (Map.Entry<String, List<String>> e : anagrams("tea", "ate", "tan", "nat", "eat", "kaba").entrySet()) {
            System.out.println(e.getKey() + "=" + e.getValue());
        }
        Map<Character, Integer> count = new HashMap<>();
        for (String arg : args) for (char c : arg.toCharArray()) count.put(c, count.getOrDefault(c, 0) + 1);
        System.out.println(count + " " + count.values().size());
        Map<Integer, String> names = new HashMap<>();
        for (int i = 20; i > 0; i--) names.put(i * 37, "n" + i);
        for (int key : names.keySet()) System.out.print(key + " ");
        System.out.println(names.remove(37) + names.containsValue("n1") + names.putIfAbsent(74, "x"));
        Deque<String> lines = new ArrayDeque<>();
        for (String w : a) lines.addFirst(w.substring(1));
        System.out.println(lines + " " + lines.peekLast() + " " + String.join("/", lines));
        List<Integer> list = new ArrayList<>(List.of(5, 6, 7, 8));
        list.remove(1);
        list.remove(Integer.valueOf(8));
        list.add(0, 9);
        System.out.println(list + " " + list.indexOf(7) + " " + list.contains(8) + " " + list.subList(1, 3) + " "
            + list.equals(Arrays.asList(9, 5, 7)));
        List<String> fixed = List.of("one");
        fixed.add("two");
    }
}
