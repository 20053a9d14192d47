package java.util;

import java.util.function.IntConsumer;

/** How many numbers there are, their sum, which is an int here, the least and the greatest. */
public class IntSummaryStatistics implements IntConsumer {
    private int count;
    private int sum;
    private int least = Integer.MAX_VALUE;
    private int most = Integer.MIN_VALUE;

    public void accept(int value) {
        count++;
        sum += value;
        least = Math.min(least, value);
        most = Math.max(most, value);
    }

    public int getCount() {
        return count;
    }

    public int getSum() {
        return sum;
    }

    public int getMin() {
        return least;
    }

    public int getMax() {
        return most;
    }
}
