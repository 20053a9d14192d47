package java.util;

import java.util.function.IntFunction;
import java.util.function.IntUnaryOperator;
import java.util.stream.IntStream;
import java.util.stream.Stream;

public final class Arrays {
    public static void sort(int[] all) {
        int[] other = new int[all.length];
        sort(all, other, 0, all.length);
    }

    public static void sort(int[] all, int from, int to) {
        int[] other = new int[all.length];
        sort(all, other, from, to);
    }

    private static void sort(int[] all, int[] other, int from, int to) {
        if (to - from < 2) {
            return;
        }
        int middle = (from + to) / 2;
        sort(all, other, from, middle);
        sort(all, other, middle, to);
        int left = from;
        int right = middle;
        for (int k = from; k < to; k++) {
            if (left < middle && (right >= to || all[left] <= all[right])) {
                other[k] = all[left];
                left++;
            } else {
                other[k] = all[right];
                right++;
            }
        }
        for (int k = from; k < to; k++) {
            all[k] = other[k];
        }
    }

    public static void sort(char[] all) {
        char[] other = new char[all.length];
        sort(all, other, 0, all.length);
    }

    public static void sort(char[] all, int from, int to) {
        char[] other = new char[all.length];
        sort(all, other, from, to);
    }

    private static void sort(char[] all, char[] other, int from, int to) {
        if (to - from < 2) {
            return;
        }
        int middle = (from + to) / 2;
        sort(all, other, from, middle);
        sort(all, other, middle, to);
        int left = from;
        int right = middle;
        for (int k = from; k < to; k++) {
            if (left < middle && (right >= to || all[left] <= all[right])) {
                other[k] = all[left];
                left++;
            } else {
                other[k] = all[right];
                right++;
            }
        }
        for (int k = from; k < to; k++) {
            all[k] = other[k];
        }
    }

    public static void fill(int[] all, int value) {
        for (int k = 0; k < all.length; k++) {
            all[k] = value;
        }
    }

    public static void fill(int[] all, int from, int to, int value) {
        for (int k = from; k < to; k++) {
            all[k] = value;
        }
    }

    public static int[] copyOf(int[] all, int length) {
        int[] made = new int[length];
        for (int k = 0; k < length && k < all.length; k++) {
            made[k] = all[k];
        }
        return made;
    }

    public static int[] copyOfRange(int[] all, int from, int to) {
        if (from > to) {
            throw new IllegalArgumentException(from + " > " + to);
        }
        if (from < 0 || from > all.length) {
            throw new ArrayIndexOutOfBoundsException("Array index out of range: " + from);
        }
        int[] made = new int[to - from];
        for (int k = from; k < to && k < all.length; k++) {
            made[k - from] = all[k];
        }
        return made;
    }

    public static String toString(int[] all) {
        if (all == null) {
            return "null";
        }
        String text = "[";
        for (int k = 0; k < all.length; k++) {
            text = text + (k == 0 ? "" : ", ") + all[k];
        }
        return text + "]";
    }

    public static boolean equals(int[] one, int[] other) {
        if (one == null || other == null) {
            return one == other;
        }
        if (one.length != other.length) {
            return false;
        }
        for (int k = 0; k < one.length; k++) {
            if (one[k] != other[k]) {
                return false;
            }
        }
        return true;
    }

    public static void fill(char[] all, char value) {
        for (int k = 0; k < all.length; k++) {
            all[k] = value;
        }
    }

    public static void fill(char[] all, int from, int to, char value) {
        for (int k = from; k < to; k++) {
            all[k] = value;
        }
    }

    public static char[] copyOf(char[] all, int length) {
        char[] made = new char[length];
        for (int k = 0; k < length && k < all.length; k++) {
            made[k] = all[k];
        }
        return made;
    }

    public static char[] copyOfRange(char[] all, int from, int to) {
        if (from > to) {
            throw new IllegalArgumentException(from + " > " + to);
        }
        if (from < 0 || from > all.length) {
            throw new ArrayIndexOutOfBoundsException("Array index out of range: " + from);
        }
        char[] made = new char[to - from];
        for (int k = from; k < to && k < all.length; k++) {
            made[k - from] = all[k];
        }
        return made;
    }

    public static String toString(char[] all) {
        if (all == null) {
            return "null";
        }
        String text = "[";
        for (int k = 0; k < all.length; k++) {
            text = text + (k == 0 ? "" : ", ") + all[k];
        }
        return text + "]";
    }

    public static boolean equals(char[] one, char[] other) {
        if (one == null || other == null) {
            return one == other;
        }
        if (one.length != other.length) {
            return false;
        }
        for (int k = 0; k < one.length; k++) {
            if (one[k] != other[k]) {
                return false;
            }
        }
        return true;
    }

    public static void fill(boolean[] all, boolean value) {
        for (int k = 0; k < all.length; k++) {
            all[k] = value;
        }
    }

    public static void fill(boolean[] all, int from, int to, boolean value) {
        for (int k = from; k < to; k++) {
            all[k] = value;
        }
    }

    public static boolean[] copyOf(boolean[] all, int length) {
        boolean[] made = new boolean[length];
        for (int k = 0; k < length && k < all.length; k++) {
            made[k] = all[k];
        }
        return made;
    }

    public static boolean[] copyOfRange(boolean[] all, int from, int to) {
        if (from > to) {
            throw new IllegalArgumentException(from + " > " + to);
        }
        if (from < 0 || from > all.length) {
            throw new ArrayIndexOutOfBoundsException("Array index out of range: " + from);
        }
        boolean[] made = new boolean[to - from];
        for (int k = from; k < to && k < all.length; k++) {
            made[k - from] = all[k];
        }
        return made;
    }

    public static String toString(boolean[] all) {
        if (all == null) {
            return "null";
        }
        String text = "[";
        for (int k = 0; k < all.length; k++) {
            text = text + (k == 0 ? "" : ", ") + all[k];
        }
        return text + "]";
    }

    public static boolean equals(boolean[] one, boolean[] other) {
        if (one == null || other == null) {
            return one == other;
        }
        if (one.length != other.length) {
            return false;
        }
        for (int k = 0; k < one.length; k++) {
            if (one[k] != other[k]) {
                return false;
            }
        }
        return true;
    }

    public static int hashCode(int[] all) {
        if (all == null) {
            return 0;
        }
        int hash = 1;
        for (int k = 0; k < all.length; k++) {
            hash = 31 * hash + all[k];
        }
        return hash;
    }

    public static int binarySearch(int[] all, int key) {
        int low = 0;
        int high = all.length - 1;
        while (low <= high) {
            int middle = (low + high) >>> 1;
            if (all[middle] < key) {
                low = middle + 1;
            } else if (all[middle] > key) {
                high = middle - 1;
            } else {
                return middle;
            }
        }
        return -(low + 1);
    }

    public static <T> void sort(T[] all) {
        sort(all, null);
    }

    public static <T> void sort(T[] all, Comparator<? super T> order) {
        T[] other = (T[]) new Object[all.length];
        sort(all, other, 0, all.length, (Comparator<T>) order);
    }

    private static <T> int compare(T one, T other, Comparator<T> order) {
        if (order != null) {
            return order.compare(one, other);
        }
        return ((Comparable<T>) one).compareTo(other);
    }

    private static <T> void sort(T[] all, T[] other, int from, int to, Comparator<T> order) {
        if (to - from < 2) {
            return;
        }
        int middle = (from + to) / 2;
        sort(all, other, from, middle, order);
        sort(all, other, middle, to, order);
        int left = from;
        int right = middle;
        for (int k = from; k < to; k++) {
            if (left < middle && (right >= to || compare(all[left], all[right], order) <= 0)) {
                other[k] = all[left];
                left++;
            } else {
                other[k] = all[right];
                right++;
            }
        }
        for (int k = from; k < to; k++) {
            all[k] = other[k];
        }
    }

    public static <T> void fill(T[] all, T value) {
        for (int k = 0; k < all.length; k++) {
            all[k] = value;
        }
    }

    public static <T> T[] copyOf(T[] all, int length) {
        T[] made = (T[]) new Object[length];
        for (int k = 0; k < length && k < all.length; k++) {
            made[k] = all[k];
        }
        return made;
    }

    public static <T> T[] copyOfRange(T[] all, int from, int to) {
        T[] made = (T[]) new Object[to - from];
        for (int k = from; k < to && k < all.length; k++) {
            made[k - from] = all[k];
        }
        return made;
    }

    public static <T> String toString(T[] all) {
        if (all == null) {
            return "null";
        }
        String text = "[";
        for (int k = 0; k < all.length; k++) {
            text = text + (k == 0 ? "" : ", ") + all[k];
        }
        return text + "]";
    }

    public static <T> boolean equals(T[] one, T[] other) {
        if (one == null || other == null) {
            return one == other;
        }
        if (one.length != other.length) {
            return false;
        }
        for (int k = 0; k < one.length; k++) {
            if (!Objects.equals(one[k], other[k])) {
                return false;
            }
        }
        return true;
    }

    public static String deepToString(int[][] all) {
        String text = "[";
        for (int k = 0; k < all.length; k++) {
            text = text + (k == 0 ? "" : ", ") + toString(all[k]);
        }
        return text + "]";
    }

    public static IntStream stream(int[] all) {
        return IntStream.of(all);
    }

    public static <T> Stream<T> stream(T[] all) {
        return Stream.<T>of(all);
    }

    public static <T> List<T> asList(T... all) {
        ArrayAsList<T> made = new ArrayAsList<>();
        made.items = all;
        return made;
    }

    public static int compare(int[] one, int[] other) {
        for (int k = 0; k < one.length && k < other.length; k++) {
            if (one[k] != other[k]) {
                return one[k] < other[k] ? -1 : 1;
            }
        }
        return one.length - other.length;
    }

    public static int binarySearch(int[] all, int from, int to, int key) {
        int low = from;
        int high = to - 1;
        while (low <= high) {
            int middle = (low + high) >>> 1;
            if (all[middle] == key) {
                return middle;
            }
            if (all[middle] < key) {
                low = middle + 1;
            } else {
                high = middle - 1;
            }
        }
        return -(low + 1);
    }

    public static int mismatch(int[] one, int[] other) {
        int k = 0;
        while (k < one.length && k < other.length && one[k] == other[k]) {
            k++;
        }
        return k == one.length && k == other.length ? -1 : k;
    }

    public static int hashCode(char[] all) {
        int hash = 1;
        for (int k = 0; all != null && k < all.length; k++) {
            hash = 31 * hash + all[k];
        }
        return all == null ? 0 : hash;
    }

    public static int compare(char[] one, char[] other) {
        for (int k = 0; k < one.length && k < other.length; k++) {
            if (one[k] != other[k]) {
                return one[k] - other[k];
            }
        }
        return one.length - other.length;
    }

    public static int binarySearch(char[] all, int from, int to, char key) {
        int low = from;
        int high = to - 1;
        while (low <= high) {
            int middle = (low + high) >>> 1;
            if (all[middle] == key) {
                return middle;
            }
            if (all[middle] < key) {
                low = middle + 1;
            } else {
                high = middle - 1;
            }
        }
        return -(low + 1);
    }

    public static int mismatch(char[] one, char[] other) {
        int k = 0;
        while (k < one.length && k < other.length && one[k] == other[k]) {
            k++;
        }
        return k == one.length && k == other.length ? -1 : k;
    }

    public static int hashCode(boolean[] all) {
        int hash = 1;
        for (int k = 0; all != null && k < all.length; k++) {
            hash = 31 * hash + (all[k] ? 1231 : 1237);
        }
        return all == null ? 0 : hash;
    }

    public static int mismatch(boolean[] one, boolean[] other) {
        int k = 0;
        while (k < one.length && k < other.length && one[k] == other[k]) {
            k++;
        }
        return k == one.length && k == other.length ? -1 : k;
    }

    public static int binarySearch(char[] all, char key) {
        return binarySearch(all, 0, all.length, key);
    }

    public static <T> int binarySearch(T[] all, T key) {
        return binarySearch(all, key, null);
    }

    public static <T> int binarySearch(T[] all, T key, Comparator<? super T> order) {
        int low = 0;
        int high = all.length - 1;
        while (low <= high) {
            int middle = (low + high) >>> 1;
            int found = compare(all[middle], key, (Comparator<T>) order);
            if (found == 0) {
                return middle;
            }
            if (found < 0) {
                low = middle + 1;
            } else {
                high = middle - 1;
            }
        }
        return -(low + 1);
    }

    public static <T> int hashCode(T[] all) {
        int hash = 1;
        for (int k = 0; all != null && k < all.length; k++) {
            hash = 31 * hash + Objects.hashCode(all[k]);
        }
        return all == null ? 0 : hash;
    }

    public static <T> void fill(T[] all, int from, int to, T value) {
        for (int k = from; k < to; k++) {
            all[k] = value;
        }
    }

    public static <T> void sort(T[] all, int from, int to) {
        sort(all, from, to, null);
    }

    public static <T> void sort(T[] all, int from, int to, Comparator<? super T> order) {
        T[] other = (T[]) new Object[all.length];
        sort(all, other, from, to, (Comparator<T>) order);
    }

    public static void setAll(int[] all, IntUnaryOperator make) {
        for (int k = 0; k < all.length; k++) {
            all[k] = make.applyAsInt(k);
        }
    }

    public static <T> void setAll(T[] all, IntFunction<? extends T> make) {
        for (int k = 0; k < all.length; k++) {
            all[k] = make.apply(k);
        }
    }

    public static IntStream stream(int[] all, int from, int to) {
        return IntStream.of(copyOfRange(all, from, to));
    }

    public static <T> Stream<T> stream(T[] all, int from, int to) {
        return Stream.<T>of(copyOfRange(all, from, to));
    }

    // arrays of arrays

    public static String deepToString(char[][] all) {
        String text = "[";
        for (int k = 0; k < all.length; k++) {
            text = text + (k == 0 ? "" : ", ") + toString(all[k]);
        }
        return text + "]";
    }

    public static String deepToString(boolean[][] all) {
        String text = "[";
        for (int k = 0; k < all.length; k++) {
            text = text + (k == 0 ? "" : ", ") + toString(all[k]);
        }
        return text + "]";
    }

    public static String deepToString(int[][][] all) {
        String text = "[";
        for (int k = 0; k < all.length; k++) {
            text = text + (k == 0 ? "" : ", ") + deepToString(all[k]);
        }
        return text + "]";
    }

    public static <T> String deepToString(T[][] all) {
        String text = "[";
        for (int k = 0; k < all.length; k++) {
            text = text + (k == 0 ? "" : ", ") + toString(all[k]);
        }
        return text + "]";
    }

    public static boolean deepEquals(int[][] one, int[][] other) {
        if (one == null || other == null || one.length != other.length) {
            return one == other;
        }
        for (int k = 0; k < one.length; k++) {
            if (!equals(one[k], other[k])) {
                return false;
            }
        }
        return true;
    }

    public static boolean deepEquals(char[][] one, char[][] other) {
        if (one == null || other == null || one.length != other.length) {
            return one == other;
        }
        for (int k = 0; k < one.length; k++) {
            if (!equals(one[k], other[k])) {
                return false;
            }
        }
        return true;
    }

    public static <T> boolean deepEquals(T[][] one, T[][] other) {
        if (one == null || other == null || one.length != other.length) {
            return one == other;
        }
        for (int k = 0; k < one.length; k++) {
            if (!equals(one[k], other[k])) {
                return false;
            }
        }
        return true;
    }

    public static int deepHashCode(int[][] all) {
        int hash = 1;
        for (int k = 0; all != null && k < all.length; k++) {
            hash = 31 * hash + hashCode(all[k]);
        }
        return all == null ? 0 : hash;
    }

    public static int deepHashCode(char[][] all) {
        int hash = 1;
        for (int k = 0; all != null && k < all.length; k++) {
            hash = 31 * hash + hashCode(all[k]);
        }
        return all == null ? 0 : hash;
    }

    public static <T> int deepHashCode(T[][] all) {
        int hash = 1;
        for (int k = 0; all != null && k < all.length; k++) {
            hash = 31 * hash + hashCode(all[k]);
        }
        return all == null ? 0 : hash;
    }
}
