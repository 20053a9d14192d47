package java.lang;

public final class Math {
    public static int abs(int value) {
        return value < 0 ? -value : value;
    }

    public static int max(int one, int other) {
        return one >= other ? one : other;
    }

    public static int min(int one, int other) {
        return one <= other ? one : other;
    }

    public static int floorDiv(int one, int other) {
        int result = one / other;
        if ((one ^ other) < 0 && result * other != one) {
            return result - 1;
        }
        return result;
    }

    public static int floorMod(int one, int other) {
        int rest = one % other;
        if ((rest ^ other) < 0 && rest != 0) {
            return rest + other;
        }
        return rest;
    }

    public static int addExact(int one, int other) {
        int sum = one + other;
        if (((one ^ sum) & (other ^ sum)) < 0) {
            throw new ArithmeticException("integer overflow");
        }
        return sum;
    }

    public static int subtractExact(int one, int other) {
        int rest = one - other;
        if (((one ^ other) & (one ^ rest)) < 0) {
            throw new ArithmeticException("integer overflow");
        }
        return rest;
    }

    public static int multiplyExact(int one, int other) {
        int product = one * other;
        if (one != 0 && (product / one != other || one == -1 && other == Integer.MIN_VALUE)) {
            throw new ArithmeticException("integer overflow");
        }
        return product;
    }

    public static int negateExact(int value) {
        if (value == Integer.MIN_VALUE) {
            throw new ArithmeticException("integer overflow");
        }
        return -value;
    }

    public static int incrementExact(int value) {
        return addExact(value, 1);
    }

    public static int decrementExact(int value) {
        return subtractExact(value, 1);
    }

    public static int absExact(int value) {
        return value < 0 ? negateExact(value) : value;
    }

    /** `(int) Math.sqrt(value)`: the whole part of the root, 0 of a negative number. */
    public static int wholeRoot(int value) {
        int root = 0;
        for (int bit = 32768; bit != 0; bit = bit >> 1) {
            int next = root + bit;
            if (next <= 46340 && next * next <= value) {
                root = next;
            }
        }
        return root;
    }

    /** `value <= Math.sqrt(square)`. */
    public static boolean isWithinRoot(int value, int square) {
        return square >= 0 && (value < 0 || value <= wholeRoot(square));
    }

    /** `(int) Math.pow(base, exponent)`: what is beyond an int is its end, a fraction is cut. */
    public static int wholePower(int base, int exponent) {
        if (base == 1 || exponent == 0) {
            return 1;
        }
        if (base == -1) {
            return exponent % 2 == 0 ? 1 : -1;
        }
        if (exponent < 0) {
            return base == 0 ? Integer.MAX_VALUE : 0;
        }
        int power = 1;
        for (int k = 0; k < exponent && power != 0; k++) {
            int next = power * base;
            if (next / base != power) {
                return base < 0 && exponent % 2 != 0 ? Integer.MIN_VALUE : Integer.MAX_VALUE;
            }
            power = next;
        }
        return power;
    }

    // numbers with a fraction and long ones: named here so that they are told where they stand; none is brought in

    public static final double PI = 3.141592653589793;
    public static final double E = 2.718281828459045;

    public static native double sqrt(double value);

    public static native double cbrt(double value);

    public static native double pow(double base, double exponent);

    public static native double exp(double value);

    public static native double log(double value);

    public static native double log10(double value);

    public static native double sin(double value);

    public static native double cos(double value);

    public static native double tan(double value);

    public static native double atan2(double one, double other);

    public static native double toRadians(double value);

    public static native double toDegrees(double value);

    public static native double hypot(double one, double other);

    public static native double floor(double value);

    public static native double ceil(double value);

    public static native double rint(double value);

    public static native long round(double value);

    public static native int round(float value);

    public static native double signum(double value);

    public static native double random();

    public static native double abs(double value);

    public static native double max(double one, double other);

    public static native double min(double one, double other);

    public static native long abs(long value);

    public static native long max(long one, long other);

    public static native long min(long one, long other);

    public static native long floorMod(long one, long other);

    public static native long addExact(long one, long other);

    public static native long multiplyExact(long one, long other);

    public static native int toIntExact(long value);
}
