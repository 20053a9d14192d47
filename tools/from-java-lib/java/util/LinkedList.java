package java.util;

public class LinkedList<E> extends AbstractList<E> implements Deque<E> {
    private ListLink<E> first;
    private ListLink<E> last;
    private int count;

    public LinkedList() {
    }

    public LinkedList(Collection<? extends E> from) {
        addAll(from);
    }

    public int size() {
        return count;
    }

    private ListLink<E> link(int index, int end) {
        if (index < 0 || index >= end) {
            throw new IndexOutOfBoundsException("Index: " + index + ", Size: " + count);
        }
        ListLink<E> at = first;
        for (int k = 0; k < index; k++) {
            at = at.next;
        }
        return at;
    }

    /** Puts an element before a link, or at the end where there is none. */
    private void put(E element, ListLink<E> before) {
        ListLink<E> made = new ListLink<>();
        made.item = element;
        made.next = before;
        made.previous = before == null ? last : before.previous;
        if (made.previous == null) {
            first = made;
        } else {
            made.previous.next = made;
        }
        if (before == null) {
            last = made;
        } else {
            before.previous = made;
        }
        count++;
        changes++;
    }

    private E take(ListLink<E> link) {
        if (link.previous == null) {
            first = link.next;
        } else {
            link.previous.next = link.next;
        }
        if (link.next == null) {
            last = link.previous;
        } else {
            link.next.previous = link.previous;
        }
        count--;
        changes++;
        return link.item;
    }

    public E get(int index) {
        return link(index, count).item;
    }

    public E set(int index, E element) {
        ListLink<E> at = link(index, count);
        E old = at.item;
        at.item = element;
        return old;
    }

    public void add(int index, E element) {
        put(element, link(index, count + 1));
    }

    public boolean add(E element) {
        put(element, null);
        return true;
    }

    public E remove(int index) {
        return take(link(index, count));
    }

    public boolean remove(E element) {
        ListLink<E> at = first;
        while (at != null) {
            if (Objects.equals(at.item, element)) {
                take(at);
                return true;
            }
            at = at.next;
        }
        return false;
    }

    public int indexOf(E element) {
        int k = 0;
        ListLink<E> at = first;
        while (at != null) {
            if (Objects.equals(at.item, element)) {
                return k;
            }
            at = at.next;
            k++;
        }
        return -1;
    }

    public void clear() {
        first = null;
        last = null;
        count = 0;
        changes++;
    }

    private void check() {
        if (count == 0) {
            throw new NoSuchElementException();
        }
    }

    public void addFirst(E element) {
        put(element, first);
    }

    public void addLast(E element) {
        put(element, null);
    }

    public boolean offer(E element) {
        put(element, null);
        return true;
    }

    public boolean offerFirst(E element) {
        put(element, first);
        return true;
    }

    public boolean offerLast(E element) {
        put(element, null);
        return true;
    }

    public E pollFirst() {
        return count == 0 ? null : take(first);
    }

    public E pollLast() {
        return count == 0 ? null : take(last);
    }

    public E poll() {
        return pollFirst();
    }

    public E remove() {
        check();
        return take(first);
    }

    public E removeFirst() {
        check();
        return take(first);
    }

    public E removeLast() {
        check();
        return take(last);
    }

    public E getFirst() {
        check();
        return first.item;
    }

    public E getLast() {
        check();
        return last.item;
    }

    public E element() {
        return getFirst();
    }

    public E peek() {
        return count == 0 ? null : first.item;
    }

    public E peekFirst() {
        return count == 0 ? null : first.item;
    }

    public E peekLast() {
        return count == 0 ? null : last.item;
    }

    public void push(E element) {
        put(element, first);
    }

    public E pop() {
        return removeFirst();
    }

    public Iterator<E> descendingIterator() {
        ArrayList<E> turned = new ArrayList<>();
        ListLink<E> at = last;
        while (at != null) {
            turned.add(at.item);
            at = at.previous;
        }
        return turned.iterator();
    }

    public boolean removeFirstOccurrence(E element) {
        return remove(element);
    }

    public boolean removeLastOccurrence(E element) {
        int at = lastIndexOf(element);
        if (at >= 0) {
            remove(at);
        }
        return at >= 0;
    }
}
