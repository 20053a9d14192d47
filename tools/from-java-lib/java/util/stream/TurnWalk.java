package java.util.stream;

import java.util.Iterator;
import java.util.function.UnaryOperator;

/** The values that a function gives again and again. */
class TurnWalk<T> implements Iterator<T> {
    private T at;
    private UnaryOperator<T> turn;
    private boolean begun;

    TurnWalk(T first, UnaryOperator<T> turn) {
        at = first;
        this.turn = turn;
    }

    public boolean hasNext() {
        return true;
    }

    public T next() {
        if (begun) {
            at = turn.apply(at);
        }
        begun = true;
        return at;
    }
}
