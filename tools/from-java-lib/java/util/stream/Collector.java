package java.util.stream;

/** What gathers the elements of a stream; `again` gives a new one of the same kind. */
public abstract class Collector<T, R> {
    abstract void add(T element);

    abstract R result();

    abstract Collector<T, R> again();
}
