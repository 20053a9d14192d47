package java.util.stream;

import java.util.ArrayList;
import java.util.IntSummaryStatistics;
import java.util.Iterator;
import java.util.List;
import java.util.OptionalInt;
import java.util.function.IntBinaryOperator;
import java.util.function.IntConsumer;
import java.util.function.IntFunction;
import java.util.function.IntPredicate;
import java.util.function.IntSupplier;
import java.util.function.IntUnaryOperator;

/** A stream of ints. */
public final class IntStream {
    private Iterator<Integer> from;

    public static IntStream over(Iterator<Integer> from) {
        IntStream made = new IntStream();
        made.from = from;
        return made;
    }

    public static IntStream range(int first, int end) {
        return over(new RangeWalk(first, end));
    }

    public static IntStream rangeClosed(int first, int last) {
        return over(new RangeWalk(first, last + 1));
    }

    public static IntStream of(int... all) {
        List<Integer> list = new ArrayList<>();
        for (int one : all) {
            list.add(one);
        }
        return over(list.iterator());
    }

    public IntStream filter(IntPredicate test) {
        return over(new FilterWalk<Integer>(from, one -> test.test(one)));
    }

    public IntStream map(IntUnaryOperator change) {
        return over(new MapWalk<Integer, Integer>(from, one -> change.applyAsInt(one)));
    }

    public <R> Stream<R> mapToObj(IntFunction<R> change) {
        return Stream.<R>over(new MapWalk<Integer, R>(from, one -> change.apply(one)));
    }

    public Stream<Integer> boxed() {
        return Stream.<Integer>over(from);
    }

    public IntStream limit(int most) {
        return over(new LimitWalk<Integer>(from, most));
    }

    public IntStream sorted() {
        return over(boxed().sorted().iterator());
    }

    public IntStream distinct() {
        return over(boxed().distinct().iterator());
    }

    public int[] toArray() {
        List<Integer> all = boxed().toList();
        int[] made = new int[all.size()];
        for (int k = 0; k < made.length; k++) {
            made[k] = all.get(k);
        }
        return made;
    }

    public void forEach(IntConsumer action) {
        while (from.hasNext()) {
            action.accept(from.next());
        }
    }

    public int sum() {
        return reduce(0, (one, other) -> one + other);
    }

    public int count() {
        return boxed().count();
    }

    public int reduce(int first, IntBinaryOperator join) {
        int all = first;
        while (from.hasNext()) {
            all = join.applyAsInt(all, from.next());
        }
        return all;
    }

    private OptionalInt reduced(IntBinaryOperator join) {
        return from.hasNext() ? OptionalInt.of(reduce(from.next(), join)) : OptionalInt.empty();
    }

    public OptionalInt max() {
        return reduced((one, other) -> one >= other ? one : other);
    }

    public OptionalInt min() {
        return reduced((one, other) -> one <= other ? one : other);
    }

    public OptionalInt findFirst() {
        return from.hasNext() ? OptionalInt.of(from.next()) : OptionalInt.empty();
    }

    public boolean anyMatch(IntPredicate test) {
        while (from.hasNext()) {
            if (test.test(from.next())) {
                return true;
            }
        }
        return false;
    }

    public boolean allMatch(IntPredicate test) {
        return !anyMatch(one -> !test.test(one));
    }

    public boolean noneMatch(IntPredicate test) {
        return !anyMatch(test);
    }

    public static IntStream empty() {
        return of();
    }

    public static IntStream iterate(int first, IntUnaryOperator turn) {
        return over(new TurnWalk<Integer>(first, one -> turn.applyAsInt(one)));
    }

    public static IntStream iterate(int first, IntPredicate goesOn, IntUnaryOperator turn) {
        return iterate(first, turn).takeWhile(goesOn);
    }

    public static IntStream generate(IntSupplier make) {
        return over(new MapWalk<Integer, Integer>(new TurnWalk<Integer>(0, one -> one), one -> make.getAsInt()));
    }

    public static IntStream concat(IntStream one, IntStream other) {
        return over(new ChainWalk<Integer>(one.from, other.from));
    }

    public Iterator<Integer> iterator() {
        return from;
    }

    public IntStream flatMap(IntFunction<IntStream> change) {
        return over(new FlatWalk<Integer, Integer>(from, one -> change.apply(one).boxed()));
    }

    public IntStream takeWhile(IntPredicate test) {
        return over(new WhileWalk<Integer>(from, one -> test.test(one)));
    }

    public IntStream dropWhile(IntPredicate test) {
        boolean[] begun = {false};
        return filter(one -> {
            begun[0] = begun[0] || !test.test(one);
            return begun[0];
        });
    }

    public IntStream skip(int count) {
        int[] left = {count};
        return filter(one -> left[0]-- <= 0);
    }

    public IntStream peek(IntConsumer action) {
        return map(one -> {
            action.accept(one);
            return one;
        });
    }

    public void forEachOrdered(IntConsumer action) {
        forEach(action);
    }

    public OptionalInt reduce(IntBinaryOperator join) {
        return reduced(join);
    }

    public OptionalInt findAny() {
        return findFirst();
    }

    public IntStream parallel() {
        return this;
    }

    public IntStream sequential() {
        return this;
    }

    public IntSummaryStatistics summaryStatistics() {
        IntSummaryStatistics all = new IntSummaryStatistics();
        forEach(all);
        return all;
    }
}
