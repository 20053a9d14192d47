package java.util;

public class Stack<E> extends Vector<E> {
    public Stack() {
    }

    public E push(E element) {
        add(element);
        return element;
    }

    public E pop() {
        if (count == 0) {
            throw new EmptyStackException();
        }
        return remove(count - 1);
    }

    public E peek() {
        if (count == 0) {
            throw new EmptyStackException();
        }
        return items[count - 1];
    }

    public boolean empty() {
        return count == 0;
    }

    public int search(E element) {
        int at = lastIndexOf(element);
        return at < 0 ? -1 : count - at;
    }
}
