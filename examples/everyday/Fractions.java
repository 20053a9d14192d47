/** Exact fractions, records and static helpers. */
public class Fractions {
    record Fraction(int top, int bottom) implements Comparable<Fraction> {
        static final Fraction ZERO = new Fraction(0, 1);

        Fraction {
            if (bottom == 0) {
                throw new ArithmeticException("bottom is 0");
            }
            int divisor = gcd(Math.abs(top), Math.abs(bottom));
            if (bottom < 0) {
                divisor = -divisor;
            }
            top /= divisor;
            bottom /= divisor;
        }

        Fraction(int whole) {
            this(whole, 1);
        }

        Fraction plus(Fraction other) {
            return new Fraction(top * other.bottom + other.top * bottom, bottom * other.bottom);
        }

        Fraction times(Fraction other) {
            return new Fraction(top * other.top, bottom * other.bottom);
        }

        Fraction inverse() {
            return new Fraction(bottom, top);
        }

        @Override
        public int compareTo(Fraction other) {
            return Integer.compare(top * other.bottom, other.top * bottom);
        }

        boolean isWhole() {
            return bottom == 1;
        }
    }

    record Named(String name, Fraction value) {
        Named(String name) {
            this(name, Fraction.ZERO);
        }
    }

    static int gcd(int a, int b) {
        return b == 0 ? a == 0 ? 1 : a : gcd(b, a % b);
    }

    static Fraction harmonic(int n) {
        Fraction sum = Fraction.ZERO;
        for (int k = 1; k <= n; k++) {
            sum = sum.plus(new Fraction(1, k));
        }
        return sum;
    }

    public static void main(String[] args) {
        Fraction half = new Fraction(1, 2), third = new Fraction(2, -6);
        System.out.println(half + " " + third);
        System.out.println(half.plus(third) + " " + half.times(third) + " " + third.inverse());
        System.out.println(half.compareTo(third) > 0 ? "half is more" : "third is more");
        System.out.println(half.equals(new Fraction(5, 10)) + " " + half.equals(third) + " " + half.equals(null));
        System.out.println(half.hashCode() == new Fraction(5, 10).hashCode());
        for (int k = 1; k <= 8; k++) {
            Fraction one = harmonic(k);
            System.out.printf("%2d %8s %s%n", k, one.top() + "/" + one.bottom(), one.isWhole() ? "whole" : "");
        }
        Named[] all = {new Named("zero"), new Named("half", half), new Named("two", new Fraction(2))};
        for (Named one : all) {
            System.out.println(one + " " + one.name().length() + " " + one.value().top());
        }
        System.out.println(all[1].equals(new Named("half", new Fraction(2, 4))));
        System.out.println(Fraction.ZERO.inverse());
    }
}
