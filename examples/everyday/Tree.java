import java.util.ArrayList;
import java.util.List;
import java.util.function.Consumer;

/** A binary search tree of generic keys and values, with a visitor. */
public class Tree<K extends Comparable<K>, V> {
    private final class Node {
        final K key;
        V value;
        Node left, right;

        Node(K key, V value) {
            this.key = key;
            this.value = value;
            size++;
        }

        int height() {
            int l = left == null ? 0 : left.height(), r = right == null ? 0 : right.height();
            return 1 + Math.max(l, r);
        }
    }

    interface Visitor<K, V> {
        void visit(K key, V value, int depth);
    }

    private Node root;
    private int size;

    void put(K key, V value) {
        root = put(root, key, value);
    }

    private Node put(Node at, K key, V value) {
        if (at == null) return new Node(key, value);
        int order = key.compareTo(at.key);
        if (order < 0) at.left = put(at.left, key, value);
        else if (order > 0) at.right = put(at.right, key, value);
        else at.value = value;
        return at;
    }

    V get(K key) {
        Node at = root;
        while (at != null) {
            int order = key.compareTo(at.key);
            if (order == 0) return at.value;
            at = order < 0 ? at.left : at.right;
        }
        return null;
    }

    void remove(K key) {
        root = remove(root, key);
    }

    private Node remove(Node at, K key) {
        if (at == null) return null;
        int order = key.compareTo(at.key);
        if (order < 0) {
            at.left = remove(at.left, key);
            return at;
        }
        if (order > 0) {
            at.right = remove(at.right, key);
            return at;
        }
        size--;
        if (at.left == null) return at.right;
        if (at.right == null) return at.left;
        Node least = at.right;
        while (least.left != null) least = least.left;
        Node made = new Node(least.key, least.value);
        made.right = remove(at.right, least.key);
        made.left = at.left;
        return made;
    }

    void walk(Visitor<K, V> visitor) {
        walk(root, 0, visitor);
    }

    private void walk(Node at, int depth, Visitor<K, V> visitor) {
        if (at != null) {
            walk(at.left, depth + 1, visitor);
            visitor.visit(at.key, at.value, depth);
            walk(at.right, depth + 1, visitor);
        }
    }

    void keys(Consumer<K> to) {
        walk((k, v, d) -> to.accept(k));
    }

    public static void main(String[] args) {
        Tree<String, Integer> ages = new Tree<>();
        String[] names = {"Mia", "Bob", "Zoe", "Ann", "Cem", "Tom"};
        for (int i = 0; i < names.length; i++) ages.put(names[i], 20 + i);
        ages.put("Bob", 99);
        ages.walk((key, value, depth) -> System.out.println("  ".repeat(depth) + key + " " + value));
        System.out.println(ages.size + " " + ages.root.height() + " " + ages.get("Cem") + " " + ages.get("Eva"));
        ages.remove("Mia");
        ages.remove("Nobody");
        List<String> keys = new ArrayList<>();
        ages.keys(keys::add);
        System.out.println(keys + " " + ages.size);
        Tree<Integer, Boolean> odd = new Tree<>();
        for (int i = 10; i-- > 0; ) odd.put(i * 7 % 11, i % 2 == 1);
        int[] count = new int[1];
        odd.walk((k, v, d) -> {
            if (v) count[0] += k;
        });
        System.out.println(count[0] + " " + odd.get(7));
        System.out.println(ages.get("Eva") + 1);
    }
}
