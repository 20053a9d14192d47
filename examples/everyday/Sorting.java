/** Five ways to sort, counted. */
public class Sorting {
    static int swaps, compares;

    static boolean less(int a, int b) {
        compares++;
        return a < b;
    }

    static void swap(int[] a, int i, int j) {
        int t = a[i];
        a[i] = a[j];
        a[j] = t;
        ++swaps;
    }

    static void bubble(int[] a) {
        boolean done;
        int n = a.length;
        do {
            done = true;
            for (int i = 1; i < n; i++)
                if (less(a[i], a[i - 1])) {
                    swap(a, i, i - 1);
                    done = false;
                }
            n--;
        } while (!done);
    }

    static void insertion(int[] a) {
        for (int i = 1; i < a.length; i++) {
            int x = a[i], j = i;
            while (j > 0 && less(x, a[j - 1])) a[j] = a[--j];
            a[j] = x;
        }
    }

    static void selection(int[] a) {
        for (int i = 0; i < a.length - 1; i++) {
            int least = i;
            for (int j = i + 1; j < a.length; j++) least = less(a[j], a[least]) ? j : least;
            if (least != i) swap(a, i, least);
        }
    }

    static void quick(int[] a, int low, int high) {
        if (low >= high) return;
        int i = low, j = high, pivot = a[(low + high) >>> 1];
        while (i <= j) {
            while (less(a[i], pivot)) i++;
            while (less(pivot, a[j])) j--;
            if (i <= j) swap(a, i++, j--);
        }
        quick(a, low, j);
        quick(a, i, high);
    }

    static int[] merge(int[] a, int from, int to) {
        if (to - from == 1) return new int[] {a[from]};
        int middle = (from + to) / 2;
        int[] left = merge(a, from, middle), right = merge(a, middle, to), all = new int[to - from];
        for (int i = 0, l = 0, r = 0; i < all.length; i++) {
            all[i] = r == right.length || l < left.length && !less(right[r], left[l]) ? left[l++] : right[r++];
        }
        return all;
    }

    static int[] numbers(int n) {
        int[] a = new int[n];
        int x = 17;
        for (int i = 0; i < n; i++) {
            x = (x * 75 + 74) % 65537;
            a[i] = x % 100;
        }
        return a;
    }

    static String text(int... a) {
        String s = "";
        for (int x : a) s += (s.isEmpty() ? "" : " ") + x;
        return s;
    }

    static void report(String name, int[] a) {
        System.out.println(name + ": " + text(a) + " | " + compares + " compares, " + swaps + " swaps");
        compares = swaps = 0;
    }

    public static void main(String[] args) {
        int n = 12 + args.length;
        int[] a = numbers(n);
        report("given", a.clone());
        int[] b = a.clone();
        bubble(b);
        report("bubble", b);
        insertion(b = a.clone());
        report("insertion", b);
        selection(b = a.clone());
        report("selection", b);
        quick(b = a.clone(), 0, n - 1);
        report("quick", b);
        report("merge", merge(a, 0, n));
        System.out.println(text() + "|" + text(4) + "|" + text(4, 2));
    }
}
