package java.util.function;

@FunctionalInterface
public interface IntUnaryOperator {
    int applyAsInt(int value);

    default IntUnaryOperator andThen(IntUnaryOperator next) {
        return value -> next.applyAsInt(applyAsInt(value));
    }

    default IntUnaryOperator compose(IntUnaryOperator before) {
        return value -> applyAsInt(before.applyAsInt(value));
    }

    static IntUnaryOperator identity() {
        return value -> value;
    }
}
