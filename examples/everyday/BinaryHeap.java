import java.util.Arrays;
import java.util.Comparator;
import java.util.NoSuchElementException;

public class BinaryHeap<T extends Comparable<T>> {
    private T[] heap;
    private int size;
    private final Comparator<? super T> comparator;

    @SuppressWarnings("unchecked")
    public BinaryHeap(int initialCapacity, Comparator<? super T> comparator) {
        heap = (T[]) new Comparable[initialCapacity];
        this.comparator = comparator;
    }

    public BinaryHeap() {
        this(4, Comparator.naturalOrder());
    }

    public int size() { return size; }

    public boolean isEmpty() { return size == 0; }

    public void insert(T x) {
        if (size == heap.length) heap = Arrays.copyOf(heap, heap.length * 2);
        heap[size] = x;
        siftUp(size++);
    }

    public T min() {
        if (isEmpty()) throw new NoSuchElementException("heap is empty");
        return heap[0];
    }

    public T removeMin() {
        T result = min();
        heap[0] = heap[--size];
        heap[size] = null;
        siftDown(0);
        return result;
    }

    private boolean less(int i, int j) {
        return comparator.compare(heap[i], heap[j]) < 0;
    }

    private void swap(int i, int j) {
        T t = heap[i];
        heap[i] = heap[j];
        heap[j] = t;
    }

    private void siftUp(int k) {
        while (k > 0 && less(k, (k - 1) / 2)) {
            swap(k, (k - 1) / 2);
            k = (k - 1) / 2;
        }
    }

    private void siftDown(int k) {
        for (int child; (child = 2 * k + 1) < size; k = child) {
            if (child + 1 < size && less(child + 1, child)) child++;
            if (!less(child, k)) break;
            swap(k, child);
        }
    }

    static class Task implements Comparable<Task> {
        private final String name;
        private final int priority;

        Task(String name, int priority) {
            this.name = name;
            this.priority = priority;
        }

        @Override
        public int compareTo(Task that) {
            return this.priority < that.priority ? -1 : this.priority == that.priority ? this.name.compareTo(that.name) : 1;
        }

        @Override
        public String toString() { return name + "(" + priority + ")"; }
    }

    static <E extends Comparable<E>> void heapSort(E[] array) {
        BinaryHeap<E> h = new BinaryHeap<>();
        for (E e : array) h.insert(e);
        for (int i = 0; i < array.length; i++) array[i] = h.removeMin();
    }

    public static void main(String[] args) {
        BinaryHeap<Task> tasks = new BinaryHeap<>();
        tasks.insert(new Task("write report", 3));
        tasks.insert(new Task("fix bug", 1));
        tasks.insert(new Task("lunch", 2));
        tasks.insert(new Task("answer mail", 3));
        tasks.insert(new Task("deploy", 1));
        while (!tasks.isEmpty()) System.out.print(tasks.removeMin() + " ");
        System.out.println();

        Integer[] numbers = {5, 2, 9, 1, 5, 6, -3, 0};
        heapSort(numbers);
        System.out.println(Arrays.toString(numbers));
        String[] words = {"pear", "apple", "fig", "banana"};
        heapSort(words);
        System.out.println(String.join(",", words));

        BinaryHeap<String> byLength = new BinaryHeap<>(1, Comparator.comparingInt(String::length).thenComparing(Comparator.reverseOrder()));
        for (String w : "the quick brown fox jumps over the lazy dog".split(" ")) byLength.insert(w);
        while (byLength.size() > 0) System.out.print(byLength.removeMin() + (byLength.isEmpty() ? "\n" : " "));
        try {
            byLength.removeMin();
        } catch (NoSuchElementException e) {
            System.out.println("caught " + e.getMessage());
        }
    }
}
