package java.util;

/** The JDK's numbers: 48 bits in three parts of 16, multiplied by 0x5DEECE66D with 11 added. */
public class Random {
    private int high;
    private int middle;
    private int low;

    public Random() {
        setSeed(0);
    }

    public Random(int seed) {
        setSeed(seed);
    }

    public void setSeed(int seed) {
        low = seed & 65535 ^ 58989;
        middle = seed >>> 16 ^ 57068;
        high = (seed < 0 ? 65535 : 0) ^ 5;
    }

    protected int next(int bits) {
        int first = low * 58989 + 11;
        int one = middle * 58989;
        int other = low * 57068;
        int second = (one & 65535) + (other & 65535) + (first >>> 16);
        int third = (second >>> 16) + (one >>> 16) + (other >>> 16) + high * 58989 + middle * 57068 + low * 5;
        low = first & 65535;
        middle = second & 65535;
        high = third & 65535;
        return (high << 16 | middle) >>> 32 - bits;
    }

    public int nextInt() {
        return next(32);
    }

    public int nextInt(int bound) {
        if (bound <= 0) {
            throw new IllegalArgumentException("bound must be positive");
        }
        int found = next(31);
        if ((bound & bound - 1) == 0) {
            for (int k = bound; k > 0; k = k << 1) {
                found = found >> 1;
            }
            return found;
        }
        int rest = found % bound;
        while (found - rest + (bound - 1) < 0) {
            found = next(31);
            rest = found % bound;
        }
        return rest;
    }

    public int nextInt(int origin, int bound) {
        if (origin >= bound) {
            throw new IllegalArgumentException("bound must be greater than origin");
        }
        int found = nextInt();
        int size = bound - origin;
        if ((size & size - 1) == 0) {
            return (found & size - 1) + origin;
        }
        if (size > 0) {
            int half = found >>> 1;
            while (half + (size - 1) - half % size < 0) {
                half = nextInt() >>> 1;
            }
            return half % size + origin;
        }
        while (found < origin || found >= bound) {
            found = nextInt();
        }
        return found;
    }

    public boolean nextBoolean() {
        return next(1) != 0;
    }
}
