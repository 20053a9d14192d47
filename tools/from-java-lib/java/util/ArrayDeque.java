package java.util;

public class ArrayDeque<E> extends AbstractCollection<E> implements Deque<E> {
    private E[] items = (E[]) new Object[16];
    private int head;
    private int count;

    public ArrayDeque() {
    }

    public ArrayDeque(int capacity) {
    }

    public ArrayDeque(Collection<? extends E> from) {
        addAll(from);
    }

    private void room(E element) {
        if (element == null) {
            throw new NullPointerException();
        }
        if (count == items.length) {
            E[] more = (E[]) new Object[2 * count];
            for (int k = 0; k < count; k++) {
                more[k] = items[(head + k) % count];
            }
            items = more;
            head = 0;
        }
    }

    public int size() {
        return count;
    }

    E at(int k) {
        return items[(head + k) % items.length];
    }

    void removeAt(int at) {
        for (int k = at; k + 1 < count; k++) {
            items[(head + k) % items.length] = items[(head + k + 1) % items.length];
        }
        count--;
        items[(head + count) % items.length] = null;
    }

    public void addFirst(E element) {
        room(element);
        head = (head + items.length - 1) % items.length;
        items[head] = element;
        count++;
    }

    public void addLast(E element) {
        room(element);
        items[(head + count) % items.length] = element;
        count++;
    }

    public E pollFirst() {
        if (count == 0) {
            return null;
        }
        E first = items[head];
        items[head] = null;
        head = (head + 1) % items.length;
        count--;
        return first;
    }

    public E pollLast() {
        if (count == 0) {
            return null;
        }
        count--;
        int at = (head + count) % items.length;
        E last = items[at];
        items[at] = null;
        return last;
    }

    public E peekFirst() {
        return count == 0 ? null : items[head];
    }

    public E peekLast() {
        return count == 0 ? null : at(count - 1);
    }

    private void check() {
        if (count == 0) {
            throw new NoSuchElementException();
        }
    }

    public boolean add(E element) {
        addLast(element);
        return true;
    }

    public boolean offer(E element) {
        addLast(element);
        return true;
    }

    public boolean offerFirst(E element) {
        addFirst(element);
        return true;
    }

    public boolean offerLast(E element) {
        addLast(element);
        return true;
    }

    public E remove() {
        check();
        return pollFirst();
    }

    public E removeFirst() {
        check();
        return pollFirst();
    }

    public E removeLast() {
        check();
        return pollLast();
    }

    public E poll() {
        return pollFirst();
    }

    public E element() {
        check();
        return peekFirst();
    }

    public E getFirst() {
        check();
        return peekFirst();
    }

    public E getLast() {
        check();
        return peekLast();
    }

    public E peek() {
        return peekFirst();
    }

    public void push(E element) {
        addFirst(element);
    }

    public E pop() {
        return removeFirst();
    }

    public void clear() {
        while (count > 0) {
            pollLast();
        }
        head = 0;
    }

    public Iterator<E> iterator() {
        DequeWalk<E> walk = new DequeWalk<>();
        walk.deque = this;
        walk.step = 1;
        return walk;
    }

    public Iterator<E> descendingIterator() {
        DequeWalk<E> walk = new DequeWalk<>();
        walk.deque = this;
        walk.at = count - 1;
        walk.step = -1;
        return walk;
    }

    public boolean removeFirstOccurrence(E element) {
        return remove(element);
    }
}
