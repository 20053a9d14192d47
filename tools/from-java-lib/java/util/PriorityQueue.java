package java.util;

/** A heap as the JDK keeps it, so that its order is the same. */
public class PriorityQueue<E> extends AbstractCollection<E> implements Queue<E> {
    private E[] heap = (E[]) new Object[11];
    private Comparator<? super E> order;
    private int count;

    public PriorityQueue() {
    }

    public PriorityQueue(int capacity) {
    }

    public PriorityQueue(Comparator<? super E> order) {
        this.order = order;
    }

    public PriorityQueue(int capacity, Comparator<? super E> order) {
        this.order = order;
    }

    public PriorityQueue(Collection<? extends E> from) {
        for (E one : from) {
            room();
            heap[count] = one;
            count++;
        }
        for (int k = count / 2 - 1; k >= 0; k--) {
            down(k, heap[k]);
        }
    }

    public int size() {
        return count;
    }

    private int compare(E one, E other) {
        if (order != null) {
            return order.compare(one, other);
        }
        return ((Comparable<E>) one).compareTo(other);
    }

    private void room() {
        if (count == heap.length) {
            E[] more = (E[]) new Object[2 * count];
            for (int k = 0; k < count; k++) {
                more[k] = heap[k];
            }
            heap = more;
        }
    }

    private void up(int at, E element) {
        int k = at;
        while (k > 0) {
            int parent = (k - 1) >>> 1;
            if (compare(element, heap[parent]) >= 0) {
                break;
            }
            heap[k] = heap[parent];
            k = parent;
        }
        heap[k] = element;
    }

    private void down(int at, E element) {
        int k = at;
        int half = count >>> 1;
        while (k < half) {
            int child = 2 * k + 1;
            if (child + 1 < count && compare(heap[child], heap[child + 1]) > 0) {
                child = child + 1;
            }
            if (compare(element, heap[child]) <= 0) {
                break;
            }
            heap[k] = heap[child];
            k = child;
        }
        heap[k] = element;
    }

    public boolean offer(E element) {
        if (element == null) {
            throw new NullPointerException();
        }
        room();
        count++;
        up(count - 1, element);
        return true;
    }

    public boolean add(E element) {
        return offer(element);
    }

    public E peek() {
        return count == 0 ? null : heap[0];
    }

    public E poll() {
        if (count == 0) {
            return null;
        }
        E first = heap[0];
        removeAt(0);
        return first;
    }

    void removeAt(int at) {
        count--;
        E moved = heap[count];
        heap[count] = null;
        if (at == count) {
            return;
        }
        down(at, moved);
        if (heap[at] == moved) {
            up(at, moved);
        }
    }

    public E remove() {
        if (count == 0) {
            throw new NoSuchElementException();
        }
        return poll();
    }

    public E element() {
        if (count == 0) {
            throw new NoSuchElementException();
        }
        return heap[0];
    }

    public boolean remove(E element) {
        for (int k = 0; k < count; k++) {
            if (Objects.equals(element, heap[k])) {
                removeAt(k);
                return true;
            }
        }
        return false;
    }

    public void clear() {
        for (int k = 0; k < count; k++) {
            heap[k] = null;
        }
        count = 0;
    }

    public Iterator<E> iterator() {
        HeapWalk<E> walk = new HeapWalk<>();
        walk.items = heap;
        walk.count = count;
        return walk;
    }

    public Comparator<? super E> comparator() {
        return order;
    }
}
