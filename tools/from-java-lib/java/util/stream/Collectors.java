package java.util.stream;

import java.util.Collection;
import java.util.Comparator;
import java.util.HashMap;
import java.util.List;
import java.util.Map;
import java.util.Optional;
import java.util.Set;
import java.util.function.BinaryOperator;
import java.util.function.Function;
import java.util.function.Predicate;
import java.util.function.Supplier;
import java.util.function.ToIntFunction;

public final class Collectors {
    public static <T> Collector<T, List<T>> toList() {
        return new ListCollector<T>();
    }

    public static <T> Collector<T, Set<T>> toSet() {
        return new SetCollector<T>();
    }

    public static <T> Collector<T, String> joining() {
        return new JoiningCollector<T>("", "", "");
    }

    public static <T> Collector<T, String> joining(String between) {
        return new JoiningCollector<T>(between, "", "");
    }

    public static <T> Collector<T, String> joining(String between, String before, String behind) {
        return new JoiningCollector<T>(between, before, behind);
    }

    public static <T, K> Collector<T, Map<K, List<T>>> groupingBy(Function<T, K> key) {
        return new GroupingCollector<T, K, List<T>, Map<K, List<T>>>(key, new ListCollector<T>(),
            () -> new HashMap<K, List<T>>());
    }

    public static <T, K, D> Collector<T, Map<K, D>> groupingBy(Function<T, K> key, Collector<T, D> each) {
        return new GroupingCollector<T, K, D, Map<K, D>>(key, each, () -> new HashMap<K, D>());
    }

    public static <T> Collector<T, Integer> counting() {
        return new SummingCollector<T>(one -> 1);
    }

    public static <T> Collector<T, Integer> summingInt(ToIntFunction<T> value) {
        return new SummingCollector<T>(value);
    }

    public static <T, K, V> Collector<T, Map<K, V>> toMap(Function<T, K> key, Function<T, V> value) {
        return new MapCollector<T, K, V, Map<K, V>>(key, value, null, () -> new HashMap<K, V>());
    }

    public static <T, K, V> Collector<T, Map<K, V>> toMap(Function<T, K> key, Function<T, V> value,
        BinaryOperator<V> join) {
        return new MapCollector<T, K, V, Map<K, V>>(key, value, join, () -> new HashMap<K, V>());
    }

    public static <T, U, R> Collector<T, R> mapping(Function<T, U> change, Collector<U, R> each) {
        return new MappingCollector<T, U, R>(change, each);
    }

    public static <T, K, D, M extends Map<K, D>> Collector<T, M> groupingBy(Function<T, K> key, Supplier<M> make,
        Collector<T, D> each) {
        return new GroupingCollector<T, K, D, M>(key, each, make);
    }

    public static <T> Collector<T, Map<Boolean, List<T>>> partitioningBy(Predicate<T> test) {
        return new PartingCollector<T, List<T>>(test, new ListCollector<T>());
    }

    public static <T, D> Collector<T, Map<Boolean, D>> partitioningBy(Predicate<T> test, Collector<T, D> each) {
        return new PartingCollector<T, D>(test, each);
    }

    public static <T, C extends Collection<T>> Collector<T, C> toCollection(Supplier<C> make) {
        return new GatheringCollector<T, C>(make);
    }

    public static <T, K, V, M extends Map<K, V>> Collector<T, M> toMap(Function<T, K> key, Function<T, V> value,
        BinaryOperator<V> join, Supplier<M> make) {
        return new MapCollector<T, K, V, M>(key, value, join, make);
    }

    public static <T> Collector<T, List<T>> toUnmodifiableList() {
        return new ListCollector<T>();
    }

    public static <T> Collector<T, Set<T>> toUnmodifiableSet() {
        return new SetCollector<T>();
    }

    public static <T> Collector<T, Optional<T>> maxBy(Comparator<? super T> order) {
        return new ReducingCollector<T>((one, other) -> order.compare(one, other) >= 0 ? one : other);
    }

    public static <T> Collector<T, Optional<T>> minBy(Comparator<? super T> order) {
        return new ReducingCollector<T>((one, other) -> order.compare(one, other) <= 0 ? one : other);
    }

    public static <T> Collector<T, Optional<T>> reducing(BinaryOperator<T> join) {
        return new ReducingCollector<T>(join);
    }

    public static <T> Collector<T, T> reducing(T first, BinaryOperator<T> join) {
        return new FinishingCollector<T, Optional<T>, T>(new ReducingCollector<T>(join),
            found -> found.isPresent() ? join.apply(first, found.get()) : first);
    }

    public static <T, R, S> Collector<T, S> collectingAndThen(Collector<T, R> each, Function<R, S> last) {
        return new FinishingCollector<T, R, S>(each, last);
    }

    public static <T, R> Collector<T, R> filtering(Predicate<? super T> test, Collector<T, R> each) {
        return new FilteringCollector<T, R>((Predicate<T>) test, each);
    }
}
