import java.util.ArrayList;
import java.util.List;

/** Sieve, factors, perfect numbers, Collatz, digits. */
public class Primes {
    static final int LIMIT = 60;

    static boolean[] sieve(int n) {
        boolean[] composite = new boolean[n + 1];
        composite[0] = composite[1] = true;
        for (int i = 2; i * i <= n; i++) {
            if (composite[i]) continue;
            for (int j = i * i; j <= n; j += i) composite[j] = true;
        }
        return composite;
    }

    static List<Integer> factors(int n) {
        List<Integer> all = new ArrayList<>();
        for (int p = 2; n > 1; ) {
            if (n % p == 0) {
                all.add(p);
                n /= p;
            } else {
                p++;
            }
        }
        return all;
    }

    static boolean isPerfect(int n) {
        int sum = 0;
        for (int d = 1; d <= n / 2; d++) sum += n % d == 0 ? d : 0;
        return sum == n && n > 0;
    }

    static int collatz(int n) {
        int steps = 0;
        while (n != 1) {
            n = (n & 1) == 0 ? n >> 1 : 3 * n + 1;
            steps++;
        }
        return steps;
    }

    static int reversed(int n) {
        int r = 0;
        for (; n > 0; n /= 10) r = r * 10 + n % 10;
        return r;
    }

    static int power(int base, int e, int m) {
        int result = 1;
        base %= m;
        while (e > 0) {
            if (e % 2 == 1) result = result * base % m;
            base = base * base % m;
            e /= 2;
        }
        return result;
    }

    public static void main(String[] args) {
        boolean[] composite = sieve(LIMIT);
        StringBuilder line = new StringBuilder();
        int count = 0;
        for (int i = 0; i <= LIMIT; i++) {
            if (!composite[i]) {
                line.append(i).append(++count % 10 == 0 ? "\n" : " ");
            }
        }
        System.out.println(line);
        for (int n : new int[] {12, 97, 360, 1001}) System.out.println(n + " = " + factors(n));
        for (int n = 1; n < 500; n++) if (isPerfect(n)) System.out.println(n + " is perfect");
        int longest = 0, best = 0;
        for (int n = 1; n < 100; n++) {
            int steps = collatz(n);
            if (steps > best) {
                best = steps;
                longest = n;
            }
        }
        System.out.println(longest + " takes " + best);
        System.out.println(reversed(12340) + " " + power(3, 45, 7) + " " + Integer.toBinaryString(10) + " "
            + Integer.toHexString(-1)
            + " " + Integer.parseInt("-77") + " " + Integer.MAX_VALUE + " " + (Integer.MIN_VALUE - 1) + " "
                + Math.floorMod(-7, 3) + " " + -7 % 3 + " " + -7 / 2
            + " " + (-7 >> 1) + " " + (-7 >>> 28) + " " + (5 & 3 | 8 ^ 2) + " " + ~5);
    }
}
