package java.util;

/** Goes over a deque from one end to the other. */
final class DequeWalk<E> implements Iterator<E> {
    ArrayDeque<E> deque;
    int at;
    int step;

    public boolean hasNext() {
        return at >= 0 && at < deque.size();
    }

    public E next() {
        if (!hasNext()) {
            throw new NoSuchElementException();
        }
        E element = deque.at(at);
        at += step;
        return element;
    }

    public void remove() {
        if (step > 0) {
            at--;
            deque.removeAt(at);
        } else {
            deque.removeAt(at + 1);
        }
    }
}
