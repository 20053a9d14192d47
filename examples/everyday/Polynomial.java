import java.util.Arrays;

/** Polynomials with whole coefficients: immutable values, overloads, varargs. */
public final class Polynomial {
    private final int[] c;

    public Polynomial(int... c) {
        int n = c.length;
        while (n > 0 && c[n - 1] == 0) {
            n--;
        }
        this.c = Arrays.copyOf(c, n);
    }

    public int degree() {
        return c.length - 1;
    }

    public Polynomial plus(Polynomial other) {
        int[] sum = new int[Math.max(c.length, other.c.length)];
        for (int i = 0; i < sum.length; i++) {
            sum[i] = (i < c.length ? c[i] : 0) + (i < other.c.length ? other.c[i] : 0);
        }
        return new Polynomial(sum);
    }

    public Polynomial times(int factor) {
        int[] made = c.clone();
        for (int i = 0; i < made.length; i++) made[i] *= factor;
        return new Polynomial(made);
    }

    public Polynomial times(Polynomial other) {
        if (c.length == 0 || other.c.length == 0) return new Polynomial();
        int[] made = new int[c.length + other.c.length - 1];
        for (int i = 0; i < c.length; i++)
            for (int j = 0; j < other.c.length; j++)
                made[i + j] += c[i] * other.c[j];
        return new Polynomial(made);
    }

    public int at(int x) {
        int value = 0;
        for (int i = c.length; --i >= 0; ) value = value * x + c[i];
        return value;
    }

    public Polynomial derivative() {
        int[] made = new int[Math.max(0, c.length - 1)];
        for (int i = 1; i < c.length; i++) made[i - 1] = i * c[i];
        return new Polynomial(made);
    }

    @Override
    public boolean equals(Object obj) {
        if (obj == null || getClass() != obj.getClass()) {
            return false;
        }
        return Arrays.equals(c, ((Polynomial) obj).c);
    }

    @Override
    public int hashCode() {
        return Arrays.hashCode(c);
    }

    @Override
    public String toString() {
        if (c.length == 0) return "0";
        StringBuilder text = new StringBuilder();
        for (int i = c.length - 1; i >= 0; i--) {
            if (c[i] == 0) continue;
            if (text.length() > 0) text.append(c[i] > 0 ? " + " : " - ");
            else if (c[i] < 0) text.append("-");
            int size = Math.abs(c[i]);
            if (size != 1 || i == 0) text.append(size);
            text.append(i == 0 ? "" : i == 1 ? "x" : "x^" + i);
        }
        return text.toString();
    }

    public static void main(String[] args) {
        Polynomial p = new Polynomial(1, -3, 0, 2), q = new Polynomial(-1, 1);
        System.out.println(p + " ; " + q + " ; " + new Polynomial(0, 0));
        System.out.println(p.plus(q) + " ; " + p.times(q) + " ; " + q.times(-2) + " ; " + p.derivative());
        for (int x = -2; x <= 2 + args.length; x++) System.out.print(p.at(x) + (x == 2 ? "\n" : " "));
        System.out.println();
        System.out.println(p.plus(q).plus(q.times(-1)).equals(p) + " " + p.equals(q) + " " + p.equals(null) + " "
            + (p.hashCode() == new Polynomial(1, -3, 0, 2, 0).hashCode()) + " " + new Polynomial().degree());
    }
}
