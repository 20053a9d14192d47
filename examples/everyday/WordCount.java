import java.util.*;

/** Counts words in a text, by a hash map, a tree map and a sorted list. */
public class WordCount {
    static final String TEXT = "the cat and the dog and the bird sat on the mat; the dog saw the cat, and the cat saw the bird.";

    static String clean(String word) {
        StringBuilder kept = new StringBuilder();
        for (int i = 0; i < word.length(); i++) {
            char c = word.charAt(i);
            if (Character.isLetter(c)) {
                kept.append(Character.toLowerCase(c));
            }
        }
        return kept.toString();
    }

    public static void main(String[] args) {
        Map<String, Integer> counts = new HashMap<>();
        List<String> words = new ArrayList<>();
        for (String word : TEXT.split(" ")) {
            String cleaned = clean(word);
            if (!cleaned.isEmpty()) {
                words.add(cleaned);
            }
        }
        for (String arg : args) {
            words.add(clean(arg));
        }
        for (String word : words) {
            if (counts.containsKey(word)) {
                counts.put(word, counts.get(word) + 1);
            } else {
                counts.put(word, 1);
            }
        }
        System.out.println(words.size() + " words, " + counts.size() + " different");
        for (Map.Entry<String, Integer> entry : counts.entrySet()) {
            System.out.println(entry.getKey() + ": " + entry.getValue());
        }
        Map<Integer, List<String>> byCount = new TreeMap<>();
        for (String word : counts.keySet()) {
            byCount.computeIfAbsent(counts.get(word), n -> new ArrayList<>()).add(word);
        }
        for (Map.Entry<Integer, List<String>> entry : byCount.entrySet()) {
            List<String> all = entry.getValue();
            Collections.sort(all);
            System.out.println(entry.getKey() + " times: " + String.join(", ", all));
        }
        Map<Character, Integer> letters = new TreeMap<>();
        for (char c : TEXT.toCharArray()) {
            if (Character.isLetter(c)) {
                letters.merge(c, 1, Integer::sum);
            }
        }
        System.out.println(letters);
        String longest = "";
        for (String word : counts.keySet()) {
            if (word.length() > longest.length() || word.length() == longest.length() && word.compareTo(longest) < 0) {
                longest = word;
            }
        }
        System.out.println("longest: " + longest + ", the: " + counts.getOrDefault("the", 0) + ", cow: "
            + counts.getOrDefault("cow", 0));
    }
}
