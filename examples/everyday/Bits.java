/** Bit sets, flags and a small random number generator; static initialisers in order. */
public class Bits {
    static final int READ = 1, WRITE = 1 << 1, RUN = 1 << 2;
    static final String[] NAMES = {"read", "write", "run"};
    static final int[] COUNTS;

    static {
        COUNTS = new int[8];
        for (int i = 0; i < COUNTS.length; i++) {
            COUNTS[i] = count(i);
        }
    }

    static int count(int n) {
        int c = 0;
        for (; n != 0; n &= n - 1) c++;
        return c;
    }

    static String text(int flags) {
        if (flags == 0) return "none";
        String all = "";
        for (int i = 0; i < NAMES.length; i++) {
            if ((flags & 1 << i) != 0) all += (all.length() == 0 ? "" : "|") + NAMES[i];
        }
        return all;
    }

    static class Random {
        private int state;

        Random(int seed) {
            state = seed == 0 ? 1 : seed;
        }

        int next() {
            state ^= state << 13;
            state ^= state >>> 17;
            state ^= state << 5;
            return state;
        }

        int next(int bound) {
            return (next() >>> 1) % bound;
        }

        boolean chance(int percent) {
            return next(100) < percent;
        }
    }

    static class BitSet {
        private int[] words = new int[1];

        void set(int i) {
            int w = i / 32;
            if (w >= words.length) {
                int[] more = new int[w + 1];
                System.arraycopy(words, 0, more, 0, words.length);
                words = more;
            }
            words[w] |= 1 << i % 32;
        }

        boolean get(int i) {
            return i / 32 < words.length && (words[i / 32] >> i % 32 & 1) == 1;
        }

        int size() {
            int n = 0;
            for (int word : words) n += count(word);
            return n;
        }
    }

    public static void main(String[] args) {
        for (int flags : new int[] {0, READ, READ | RUN, READ | WRITE | RUN, ~READ & 7}) {
            System.out.println(text(flags) + " " + COUNTS[flags]);
        }
        Random random = new Random(2463534 + args.length);
        int[] hits = new int[5];
        for (int i = 0; i < 200; i++) hits[random.next(hits.length)]++;
        for (int h : hits) System.out.print(h + " ");
        System.out.println(random.chance(50) ? "yes" : "no");
        BitSet set = new BitSet();
        for (int i = 0; i < 100; i += 7) set.set(i);
        System.out.println(set.size() + " " + set.get(14) + " " + set.get(15) + " " + set.get(98) + " "
            + set.get(1000) + " " + set.words.length);
        System.out.println(count(-1) + " " + Integer.bitCount(255) + " " + (1 << 33) + " " + (-1 >>> 31));
    }
}
