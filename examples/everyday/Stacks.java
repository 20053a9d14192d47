import java.util.Iterator;
import java.util.NoSuchElementException;

/** A generic stack and a generic queue of our own, with iterators as inner classes. */
public class Stacks {
    static class LinkedStack<T> implements Iterable<T> {
        private class Node {
            T value;
            Node next;

            Node(T value, Node next) {
                this.value = value;
                this.next = next;
            }
        }

        private Node top;
        private int size;

        void push(T value) {
            top = new Node(value, top);
            size++;
        }

        T pop() {
            if (top == null) {
                throw new NoSuchElementException("empty stack");
            }
            T value = top.value;
            top = top.next;
            size--;
            return value;
        }

        T peek() {
            return top == null ? null : top.value;
        }

        boolean isEmpty() {
            return size == 0;
        }

        @Override
        public Iterator<T> iterator() {
            return new Iterator<T>() {
                private Node at = top;

                @Override
                public boolean hasNext() {
                    return at != null;
                }

                @Override
                public T next() {
                    T value = at.value;
                    at = at.next;
                    return value;
                }
            };
        }
    }

    static class RingQueue<E> {
        private final E[] items;
        private int head, count;

        @SuppressWarnings("unchecked")
        RingQueue(int capacity) {
            items = (E[]) new Object[capacity];
        }

        boolean offer(E item) {
            if (count == items.length) return false;
            items[(head + count++) % items.length] = item;
            return true;
        }

        E poll() {
            if (count == 0) return null;
            E item = items[head];
            head = (head + 1) % items.length;
            count--;
            return item;
        }
    }

    static boolean balanced(String text) {
        LinkedStack<Character> open = new LinkedStack<>();
        for (char c : text.toCharArray()) {
            switch (c) {
                case '(': case '[': case '{':
                    open.push(c);
                    break;
                case ')': case ']': case '}':
                    if (open.isEmpty()) return false;
                    char before = open.pop();
                    boolean fits = before == '(' && c == ')' || before == '[' && c == ']' || before == '{' && c == '}';
                    if (!fits) return false;
                    break;
                default:
            }
        }
        return open.isEmpty();
    }

    static <T> void turn(LinkedStack<T> from, LinkedStack<T> to) {
        while (!from.isEmpty()) {
            to.push(from.pop());
        }
    }

    public static void main(String[] args) {
        for (String text : new String[] {"(a[b]{c})", "(]", "((", "", "x)"}) {
            System.out.println("'" + text + "' " + balanced(text));
        }
        LinkedStack<String> words = new LinkedStack<>();
        for (String arg : args) words.push(arg);
        words.push("last");
        LinkedStack<String> turned = new LinkedStack<>();
        for (String word : words) System.out.println("word " + word);
        turn(words, turned);
        System.out.println(turned.peek() + " " + turned.size + " " + words.peek());
        RingQueue<Integer> queue = new RingQueue<>(3);
        for (int i = 1; i <= 5; i++) System.out.print(queue.offer(i * i) + " ");
        System.out.println();
        Integer next;
        int sum = 0;
        while ((next = queue.poll()) != null) sum += next;
        System.out.println(sum);
        words.pop();
    }
}
