/** A doubly linked list of our own, with a sentinel and a static nested node. */
public class LinkedListDemo<E extends Comparable<E>> {
    private static class Node<E> {
        E value;
        Node<E> next = this, previous = this;

        Node(E value) {
            this.value = value;
        }
    }

    private final Node<E> ends = new Node<>(null);
    private int size;

    public void addLast(E value) {
        insert(value, ends);
    }

    public void addFirst(E value) {
        insert(value, ends.next);
    }

    private void insert(E value, Node<E> before) {
        Node<E> made = new Node<>(value);
        made.next = before;
        made.previous = before.previous;
        before.previous.next = made;
        before.previous = made;
        size++;
    }

    public void addSorted(E value) {
        Node<E> at = ends.next;
        while (at != ends && at.value.compareTo(value) < 0) {
            at = at.next;
        }
        insert(value, at);
    }

    public boolean remove(E value) {
        for (Node<E> at = ends.next; at != ends; at = at.next) {
            if (at.value.equals(value)) {
                at.previous.next = at.next;
                at.next.previous = at.previous;
                size--;
                return true;
            }
        }
        return false;
    }

    public void reverse() {
        Node<E> at = ends;
        do {
            Node<E> next = at.next;
            at.next = at.previous;
            at.previous = next;
            at = next;
        } while (at != ends);
    }

    public E max() {
        E most = null;
        for (Node<E> at = ends.next; at != ends; at = at.next) {
            if (most == null || at.value.compareTo(most) > 0) most = at.value;
        }
        return most;
    }

    @Override
    public String toString() {
        StringBuilder text = new StringBuilder("[");
        for (Node<E> at = ends.next; at != ends; at = at.next) {
            if (at != ends.next) text.append(", ");
            text.append(at.value);
        }
        return text.append("]").toString();
    }

    static class Version implements Comparable<Version> {
        final int major, minor;

        Version(int major, int minor) {
            this.major = major;
            this.minor = minor;
        }

        @Override
        public int compareTo(Version o) {
            int first = major - o.major;
            return first != 0 ? first : minor - o.minor;
        }

        public String toString() {
            return major + "." + minor;
        }
    }

    public static void main(String[] args) {
        LinkedListDemo<Integer> numbers = new LinkedListDemo<>();
        for (int i : new int[] {5, 3, 8, 1}) numbers.addSorted(i);
        numbers.addFirst(100);
        numbers.addLast(args.length);
        System.out.println(numbers + " " + numbers.size + " " + numbers.max());
        numbers.reverse();
        System.out.println(numbers.remove(8) + " " + numbers.remove(77) + " " + numbers);
        LinkedListDemo<String> words = new LinkedListDemo<>();
        for (String w : "pear apple fig".split(" ")) words.addSorted(w);
        System.out.println(words + " " + words.max());
        LinkedListDemo<Version> versions = new LinkedListDemo<>();
        versions.addSorted(new Version(2, 1));
        versions.addSorted(new Version(1, 10));
        versions.addSorted(new Version(1, 9));
        System.out.println(versions + " " + versions.max() + " " + versions.remove(new Version(1, 9)));
        System.out.println(new LinkedListDemo<String>().max());
    }
}
