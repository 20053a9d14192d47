package java.util.stream;

import java.util.ArrayList;
import java.util.Comparator;
import java.util.Iterator;
import java.util.LinkedHashSet;
import java.util.List;
import java.util.Optional;
import java.util.function.BiFunction;
import java.util.function.BinaryOperator;
import java.util.function.Consumer;
import java.util.function.Function;
import java.util.function.IntFunction;
import java.util.function.Predicate;
import java.util.function.Supplier;
import java.util.function.ToIntFunction;
import java.util.function.UnaryOperator;

/** A stream, which takes an element after the other from an iterator when its end asks for one. */
public final class Stream<T> {
    private Iterator<T> from;

    public static <T> Stream<T> over(Iterator<T> from) {
        Stream<T> made = new Stream<>();
        made.from = from;
        return made;
    }

    public static <T> Stream<T> of(T... all) {
        List<T> list = new ArrayList<>();
        for (T one : all) {
            list.add(one);
        }
        return Stream.<T>over(list.iterator());
    }

    public static <T> Stream<T> empty() {
        return Stream.<T>over(new ArrayList<T>().iterator());
    }

    public static <T> Stream<T> iterate(T first, UnaryOperator<T> turn) {
        return Stream.<T>over(new TurnWalk<T>(first, turn));
    }

    public Iterator<T> iterator() {
        return from;
    }

    public Stream<T> filter(Predicate<T> test) {
        return Stream.<T>over(new FilterWalk<T>(from, test));
    }

    public <R> Stream<R> map(Function<T, R> change) {
        return Stream.<R>over(new MapWalk<T, R>(from, change));
    }

    public IntStream mapToInt(ToIntFunction<T> change) {
        return IntStream.over(new MapWalk<T, Integer>(from, one -> change.applyAsInt(one)));
    }

    public Stream<T> peek(Consumer<T> action) {
        return Stream.<T>over(new MapWalk<T, T>(from, one -> {
            action.accept(one);
            return one;
        }));
    }

    public Stream<T> limit(int most) {
        if (most < 0) {
            throw new IllegalArgumentException("" + most);
        }
        return Stream.<T>over(new LimitWalk<T>(from, most));
    }

    public Stream<T> skip(int count) {
        if (count < 0) {
            throw new IllegalArgumentException("" + count);
        }
        int[] left = {count};
        return filter(one -> left[0]-- <= 0);
    }

    public Stream<T> distinct() {
        LinkedHashSet<T> seen = new LinkedHashSet<>();
        return filter(one -> seen.add(one));
    }

    public Stream<T> sorted() {
        return sorted(null);
    }

    public Stream<T> sorted(Comparator<T> order) {
        List<T> all = toList();
        all.sort(order);
        return Stream.<T>over(all.iterator());
    }

    public List<T> toList() {
        List<T> all = new ArrayList<>();
        while (from.hasNext()) {
            all.add(from.next());
        }
        return all;
    }

    public <A> A[] toArray(IntFunction<A[]> make) {
        List<T> all = toList();
        A[] made = make.apply(all.size());
        for (int k = 0; k < made.length; k++) {
            made[k] = (A) all.get(k);
        }
        return made;
    }

    public <R> R collect(Collector<T, R> all) {
        while (from.hasNext()) {
            all.add(from.next());
        }
        return all.result();
    }

    public void forEach(Consumer<T> action) {
        while (from.hasNext()) {
            action.accept(from.next());
        }
    }

    public void forEachOrdered(Consumer<T> action) {
        forEach(action);
    }

    public T reduce(T first, BinaryOperator<T> join) {
        T all = first;
        while (from.hasNext()) {
            all = join.apply(all, from.next());
        }
        return all;
    }

    public Optional<T> reduce(BinaryOperator<T> join) {
        return from.hasNext() ? Optional.<T>of(reduce(from.next(), join)) : Optional.<T>empty();
    }

    public Optional<T> max(Comparator<T> order) {
        return reduce((one, other) -> order.compare(one, other) >= 0 ? one : other);
    }

    public Optional<T> min(Comparator<T> order) {
        return reduce((one, other) -> order.compare(one, other) <= 0 ? one : other);
    }

    public Optional<T> findFirst() {
        return from.hasNext() ? Optional.<T>of(from.next()) : Optional.<T>empty();
    }

    public Optional<T> findAny() {
        return findFirst();
    }

    public int count() {
        int count = 0;
        while (from.hasNext()) {
            from.next();
            count++;
        }
        return count;
    }

    public boolean anyMatch(Predicate<T> test) {
        while (from.hasNext()) {
            if (test.test(from.next())) {
                return true;
            }
        }
        return false;
    }

    public boolean allMatch(Predicate<T> test) {
        while (from.hasNext()) {
            if (!test.test(from.next())) {
                return false;
            }
        }
        return true;
    }

    public boolean noneMatch(Predicate<T> test) {
        return !anyMatch(test);
    }

    public static <T> Stream<T> iterate(T first, Predicate<T> goesOn, UnaryOperator<T> turn) {
        return Stream.<T>over(new WhileWalk<T>(new TurnWalk<T>(first, turn), goesOn));
    }

    public static <T> Stream<T> generate(Supplier<? extends T> make) {
        return Stream.<T>over(new TurnWalk<T>(null, one -> null)).map(one -> make.get());
    }

    public static <T> Stream<T> ofNullable(T one) {
        return one == null ? Stream.<T>empty() : Stream.<T>of(one);
    }

    public static <T> Stream<T> concat(Stream<T> one, Stream<T> other) {
        return Stream.<T>over(new ChainWalk<T>(one.from, other.from));
    }

    public <R> Stream<R> flatMap(Function<T, Stream<R>> change) {
        return Stream.<R>over(new FlatWalk<T, R>(from, change));
    }

    public Stream<T> takeWhile(Predicate<T> test) {
        return Stream.<T>over(new WhileWalk<T>(from, test));
    }

    public Stream<T> dropWhile(Predicate<T> test) {
        boolean[] begun = {false};
        return filter(one -> {
            begun[0] = begun[0] || !test.test(one);
            return begun[0];
        });
    }

    public <U> U reduce(U first, BiFunction<U, ? super T, U> join, BinaryOperator<U> both) {
        U all = first;
        while (from.hasNext()) {
            all = join.apply(all, from.next());
        }
        return all;
    }

    public Object[] toArray() {
        return toList().toArray();
    }

    public Stream<T> sequential() {
        return this;
    }
}
