import java.util.ArrayList;
import java.util.List;
import java.util.Map;
import java.util.TreeMap;

public class Trie {
    private static class Node {
        Map<Character, Node> children = new TreeMap<>();
        boolean isWord;
    }

    private final Node root = new Node();
    private int size = 0;

    public boolean insert(String word) {
        Node current = root;
        for (char c : word.toCharArray()) {
            current = current.children.computeIfAbsent(c, k -> new Node());
        }
        if (current.isWord) {
            return false;
        }
        current.isWord = true;
        size++;
        return true;
    }

    public boolean contains(String word) {
        Node node = find(word);
        return node != null && node.isWord;
    }

    private Node find(String prefix) {
        Node current = root;
        for (int i = 0; i < prefix.length(); i++) {
            current = current.children.get(prefix.charAt(i));
            if (current == null) {
                return null;
            }
        }
        return current;
    }

    public List<String> autocomplete(String prefix) {
        List<String> results = new ArrayList<>();
        Node start = find(prefix);
        if (start != null) {
            collect(start, new StringBuilder(prefix), results);
        }
        return results;
    }

    private void collect(Node node, StringBuilder path, List<String> results) {
        if (node.isWord) {
            results.add(path.toString());
        }
        for (Map.Entry<Character, Node> entry : node.children.entrySet()) {
            path.append(entry.getKey());
            collect(entry.getValue(), path, results);
            path.deleteCharAt(path.length() - 1);
        }
    }

    public static void main(String[] args) {
        Trie trie = new Trie();
        String[] words = {"car", "card", "care", "cat", "dog", "do", "car"};
        for (String word : words) {
            System.out.println(word + (trie.insert(word) ? " added" : " is there already"));
        }
        System.out.println("size " + trie.size);
        for (String prefix : new String[]{"car", "do", "x", ""}) {
            System.out.println("'" + prefix + "' -> " + trie.autocomplete(prefix));
        }
        System.out.println(trie.contains("ca") + " " + trie.contains("cat"));
    }
}
