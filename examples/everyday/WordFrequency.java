import java.util.ArrayList;
import java.util.Arrays;
import java.util.Comparator;
import java.util.HashMap;
import java.util.HashSet;
import java.util.List;
import java.util.Map;
import java.util.Set;

public class WordFrequency {
    private static final Set<String> STOP_WORDS = new HashSet<>(Arrays.asList("the", "a", "of", "and", "to", "in"));
    private final Map<String, Integer> counts = new HashMap<>();
    private int total;

    public void add(String text) {
        for (String raw : text.toLowerCase().split("\\s+")) {
            String word = clean(raw);
            if (word.isEmpty() || STOP_WORDS.contains(word)) {
                continue;
            }
            counts.merge(word, 1, Integer::sum);
            total++;
        }
    }

    private static String clean(String raw) {
        StringBuilder sb = new StringBuilder();
        for (char c : raw.toCharArray()) {
            if (Character.isLetter(c)) {
                sb.append(c);
            }
        }
        return sb.toString();
    }

    public List<Map.Entry<String, Integer>> top(int n) {
        List<Map.Entry<String, Integer>> entries = new ArrayList<>(counts.entrySet());
        entries.sort(Map.Entry.<String, Integer>comparingByValue(Comparator.reverseOrder()).thenComparing(Map.Entry.comparingByKey()));
        return entries.subList(0, Math.min(n, entries.size()));
    }

    public int getTotal() {
        return total;
    }

    public static void main(String[] args) {
        String text = "It was the best of times, it was the worst of times, it was the age of wisdom, it was the age of foolishness, "
            + "it was the epoch of belief, it was the epoch of incredulity";
        WordFrequency frequency = new WordFrequency();
        frequency.add(text);
        for (String arg : args) {
            frequency.add(arg);
        }
        System.out.println("Total words: " + frequency.getTotal());
        for (Map.Entry<String, Integer> entry : frequency.top(5)) {
            StringBuilder bar = new StringBuilder();
            for (int i = 0; i < entry.getValue(); i++) {
                bar.append('*');
            }
            System.out.println(String.format("%-12s %2d %s", entry.getKey(), entry.getValue(), bar));
        }
    }
}
