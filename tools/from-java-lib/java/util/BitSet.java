package java.util;

public class BitSet {
    private boolean[] bits = new boolean[64];

    public BitSet() {
    }

    public BitSet(int size) {
        if (size < 0) {
            throw new NegativeArraySizeException("nbits < 0: " + size);
        }
        room(size);
    }

    private void room(int size) {
        if (size > bits.length) {
            boolean[] more = new boolean[size > 2 * bits.length ? size : 2 * bits.length];
            for (int k = 0; k < bits.length; k++) {
                more[k] = bits[k];
            }
            bits = more;
        }
    }

    private void check(int index) {
        if (index < 0) {
            throw new IndexOutOfBoundsException("bitIndex < 0: " + index);
        }
    }

    public boolean get(int index) {
        check(index);
        return index < bits.length && bits[index];
    }

    public void set(int index, boolean value) {
        check(index);
        room(index + 1);
        bits[index] = value;
    }

    public void set(int index) {
        set(index, true);
    }

    public void set(int from, int to) {
        for (int k = from; k < to; k++) {
            set(k, true);
        }
    }

    public void clear(int index) {
        set(index, false);
    }

    public void clear() {
        bits = new boolean[64];
    }

    public void flip(int index) {
        set(index, !get(index));
    }

    public int nextSetBit(int from) {
        for (int k = from; k < bits.length; k++) {
            if (bits[k]) {
                return k;
            }
        }
        return -1;
    }

    public int nextClearBit(int from) {
        int k = from;
        while (get(k)) {
            k++;
        }
        return k;
    }

    public int cardinality() {
        int count = 0;
        for (int k = 0; k < bits.length; k++) {
            count += bits[k] ? 1 : 0;
        }
        return count;
    }

    public int length() {
        int k = bits.length;
        while (k > 0 && !bits[k - 1]) {
            k--;
        }
        return k;
    }

    public boolean isEmpty() {
        return length() == 0;
    }

    public void and(BitSet other) {
        for (int k = 0; k < bits.length; k++) {
            bits[k] = bits[k] && other.get(k);
        }
    }

    public void or(BitSet other) {
        room(other.bits.length);
        for (int k = 0; k < other.bits.length; k++) {
            bits[k] = bits[k] || other.bits[k];
        }
    }

    public void xor(BitSet other) {
        room(other.bits.length);
        for (int k = 0; k < other.bits.length; k++) {
            bits[k] = bits[k] != other.bits[k];
        }
    }

    public void andNot(BitSet other) {
        for (int k = 0; k < bits.length; k++) {
            bits[k] = bits[k] && !other.get(k);
        }
    }

    public String toString() {
        String text = "";
        for (int k = nextSetBit(0); k >= 0; k = nextSetBit(k + 1)) {
            text = text + (text.length() == 0 ? "" : ", ") + k;
        }
        return "{" + text + "}";
    }
}
