package java.lang;

public final class Integer extends Number implements Comparable<Integer> {
    public static final int MAX_VALUE = 2147483647;
    public static final int MIN_VALUE = -2147483648;
    public static final int SIZE = 32;
    public static final int BYTES = 4;
    int value;

    public Integer(int value) {
        this.value = value;
    }

    private Integer() {
    }

    public static Integer valueOf(int value) {
        Integer made = new Integer();
        made.value = value;
        return made;
    }

    public static Integer valueOf(String text) {
        return valueOf(parseInt(text));
    }

    public static int parseInt(String text) {
        return parseInt(text, 10);
    }

    public static int parseInt(String text, int radix) {
        if (text == null) {
            throw new NumberFormatException("Cannot parse null string");
        }
        int size = text.length();
        boolean negative = size > 0 && text.charAt(0) == '-';
        int k = negative || size > 0 && text.charAt(0) == '+' ? 1 : 0;
        if (k == size) {
            throw new NumberFormatException(size == 0 ? "For input string: \"\"" + under(radix)
                : "For input string: \"" + text + "\"" + under(radix));
        }
        int most = negative ? MIN_VALUE : -MAX_VALUE;
        int least = most / radix;
        int result = 0;
        while (k < size) {
            int digit = Character.digit(text.charAt(k), radix);
            if (digit < 0 || result < least || result * radix < most + digit) {
                throw new NumberFormatException("For input string: \"" + text + "\"" + under(radix));
            }
            result = result * radix - digit;
            k++;
        }
        return negative ? result : -result;
    }

    private static String under(int radix) {
        return radix == 10 ? "" : " under radix " + radix;
    }

    public int intValue() {
        return value;
    }

    public static String toString(int value) {
        return "" + value;
    }

    public static int compare(int one, int other) {
        if (one < other) {
            return -1;
        }
        return one == other ? 0 : 1;
    }

    public static int max(int one, int other) {
        return one >= other ? one : other;
    }

    public static int min(int one, int other) {
        return one <= other ? one : other;
    }

    public static int sum(int one, int other) {
        return one + other;
    }

    public static int signum(int value) {
        return value > 0 ? 1 : value < 0 ? -1 : 0;
    }

    public static int hashCode(int value) {
        return value;
    }

    public static int bitCount(int value) {
        int count = 0;
        while (value != 0) {
            value = value & (value - 1);
            count++;
        }
        return count;
    }

    private static String inBase(int value, int shift) {
        String text = "";
        int mask = (1 << shift) - 1;
        do {
            text = Character.forDigit(value & mask, 16) + text;
            value = value >>> shift;
        } while (value != 0);
        return text;
    }

    public static String toBinaryString(int value) {
        return inBase(value, 1);
    }

    public static String toOctalString(int value) {
        return inBase(value, 3);
    }

    public static String toHexString(int value) {
        return inBase(value, 4);
    }

    public static String toString(int value, int radix) {
        if (value == 0) {
            return "0";
        }
        String text = "";
        int rest = value > 0 ? -value : value;
        while (rest != 0) {
            text = Character.forDigit(-(rest % radix), radix) + text;
            rest = rest / radix;
        }
        return value < 0 ? "-" + text : text;
    }

    public int compareTo(Integer other) {
        return compare(value, other.value);
    }

    public boolean equals(Object other) {
        return other instanceof Integer && ((Integer) other).value == value;
    }

    public int hashCode() {
        return value;
    }

    public String toString() {
        return "" + value;
    }

    public static Integer valueOf(String text, int radix) {
        return valueOf(parseInt(text, radix));
    }

    /** A number in the usual notations: decimal, and after `0x`, `#` or `0`. */
    public static Integer decode(String text) {
        boolean negative = text.startsWith("-");
        int at = negative || text.startsWith("+") ? 1 : 0;
        int radix = 10;
        if (text.startsWith("0x", at) || text.startsWith("0X", at)) {
            at += 2;
            radix = 16;
        } else if (text.startsWith("#", at)) {
            at++;
            radix = 16;
        } else if (text.startsWith("0", at) && text.length() > at + 1) {
            at++;
            radix = 8;
        }
        String digits = text.substring(at);
        return valueOf(parseInt(negative ? "-" + digits : digits, radix));
    }

    public byte byteValue() {
        return (byte) value;
    }

    public short shortValue() {
        return (short) value;
    }

    public static int highestOneBit(int value) {
        int left = value;
        int bit = 0;
        while (left != 0) {
            bit = left & -left;
            left = left ^ bit;
        }
        return bit;
    }

    public static int lowestOneBit(int value) {
        return value & -value;
    }

    public static int numberOfLeadingZeros(int value) {
        int count = 0;
        for (int bit = MIN_VALUE; bit != 0 && (value & bit) == 0; bit = bit >>> 1) {
            count++;
        }
        return count;
    }

    public static int numberOfTrailingZeros(int value) {
        int count = 0;
        for (int bit = 1; bit != 0 && (value & bit) == 0; bit = bit << 1) {
            count++;
        }
        return count;
    }

    public static int reverse(int value) {
        int turned = 0;
        for (int k = 0; k < 32; k++) {
            turned = turned << 1 | value >>> k & 1;
        }
        return turned;
    }

    public static int reverseBytes(int value) {
        return value << 24 | (value & 65280) << 8 | value >>> 8 & 65280 | value >>> 24;
    }

    public static int rotateLeft(int value, int by) {
        return value << by | value >>> -by;
    }

    public static int rotateRight(int value, int by) {
        return value >>> by | value << -by;
    }

    public static int compareUnsigned(int one, int other) {
        return compare(one + MIN_VALUE, other + MIN_VALUE);
    }

    public static int divideUnsigned(int one, int other) {
        if (other < 0) {
            return compareUnsigned(one, other) < 0 ? 0 : 1;
        }
        if (one >= 0) {
            return one / other;
        }
        int quotient = (one >>> 1) / other << 1;
        return compareUnsigned(one - quotient * other, other) < 0 ? quotient : quotient + 1;
    }

    public static int remainderUnsigned(int one, int other) {
        return one - divideUnsigned(one, other) * other;
    }

    public static String toUnsignedString(int value) {
        return value >= 0 ? "" + value : "" + divideUnsigned(value, 10) + remainderUnsigned(value, 10);
    }
}
