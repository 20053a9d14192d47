package java.util.concurrent.atomic;

import java.util.function.IntBinaryOperator;
import java.util.function.IntUnaryOperator;

/** A number that lambdas can change; there is one thread. */
public class AtomicInteger {
    private int value;

    public AtomicInteger() {
    }

    public AtomicInteger(int value) {
        this.value = value;
    }

    public int get() {
        return value;
    }

    public int intValue() {
        return value;
    }

    public void set(int next) {
        value = next;
    }

    public int getAndSet(int next) {
        int old = value;
        value = next;
        return old;
    }

    public boolean compareAndSet(int old, int next) {
        boolean fits = value == old;
        value = fits ? next : value;
        return fits;
    }

    public int incrementAndGet() {
        return addAndGet(1);
    }

    public int decrementAndGet() {
        return addAndGet(-1);
    }

    public int getAndIncrement() {
        return getAndAdd(1);
    }

    public int getAndDecrement() {
        return getAndAdd(-1);
    }

    public int addAndGet(int by) {
        value += by;
        return value;
    }

    public int getAndAdd(int by) {
        int old = value;
        value += by;
        return old;
    }

    public int updateAndGet(IntUnaryOperator change) {
        value = change.applyAsInt(value);
        return value;
    }

    public int getAndUpdate(IntUnaryOperator change) {
        int old = value;
        value = change.applyAsInt(value);
        return old;
    }

    public int accumulateAndGet(int by, IntBinaryOperator join) {
        value = join.applyAsInt(value, by);
        return value;
    }

    public String toString() {
        return "" + value;
    }
}
