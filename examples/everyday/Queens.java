import java.util.ArrayList;
import java.util.List;

/** Eight queens, subsets with a sum, a knapsack, change in coins. */
public class Queens {
    private final int n;
    private final int[] column;
    private final List<int[]> found = new ArrayList<>();

    Queens(int n) {
        this.n = n;
        column = new int[n];
        place(0);
    }

    private boolean safe(int row, int c) {
        for (int r = 0; r < row; r++) {
            if (column[r] == c || Math.abs(column[r] - c) == row - r) return false;
        }
        return true;
    }

    private void place(int row) {
        if (row == n) {
            found.add(column.clone());
            return;
        }
        for (int c = 0; c < n; c++) {
            if (safe(row, c)) {
                column[row] = c;
                place(row + 1);
            }
        }
    }

    static void subsets(int[] all, int from, int rest, String chosen, List<String> to) {
        if (rest == 0) to.add(chosen.trim());
        for (int i = from; i < all.length && rest > 0; i++) {
            subsets(all, i + 1, rest - all[i], chosen + all[i] + " ", to);
        }
    }

    static int knapsack(int[] weights, int[] values, int capacity) {
        int[] best = new int[capacity + 1];
        for (int i = 0; i < weights.length; i++) {
            for (int w = capacity; w >= weights[i]; w--) {
                best[w] = Math.max(best[w], best[w - weights[i]] + values[i]);
            }
        }
        return best[capacity];
    }

    static int[] change(int amount, int... coins) {
        int[] counts = new int[coins.length];
        for (int i = 0; i < coins.length; i++) {
            counts[i] = amount / coins[i];
            amount %= coins[i];
        }
        return counts;
    }

    public static void main(String[] args) {
        for (int n = 1; n <= 6; n++) System.out.println(n + " queens: " + new Queens(n).found.size());
        int[] first = new Queens(6).found.get(0);
        for (int c : first) {
            char[] line = new char[6];
            for (int i = 0; i < line.length; i++) line[i] = i == c ? 'Q' : '-';
            System.out.println(line);
        }
        List<String> sums = new ArrayList<>();
        subsets(new int[] {1, 2, 3, 4, 5, 6}, 0, 9, "", sums);
        System.out.println(sums.size() + " " + sums);
        System.out.println(knapsack(new int[] {3, 4, 5, 9}, new int[] {3, 4, 4, 10}, 11));
        String text = "";
        for (int count : change(289 + args.length, 100, 50, 20, 5, 2, 1)) text += count + " ";
        System.out.println(text);
    }
}
