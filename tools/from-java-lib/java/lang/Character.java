package java.lang;

/** Characters up to 255 are known by their kind; another ends the program where its kind is asked. */
public final class Character implements Comparable<Character> {
    public static final char MAX_VALUE = 65535;
    public static final char MIN_VALUE = 0;
    public static final int MIN_RADIX = 2;
    public static final int MAX_RADIX = 36;
    public static final int SIZE = 16;
    public static final int BYTES = 2;
    char value;

    public static Character valueOf(char value) {
        Character made = new Character();
        made.value = value;
        return made;
    }

    private static char known(char c) {
        if (c > 255) {
            throw new UnsupportedOperationException("the kind of a character over 255");
        }
        return c;
    }

    public static boolean isDigit(char c) {
        known(c);
        return c >= '0' && c <= '9';
    }

    public static boolean isUpperCase(char c) {
        known(c);
        return c >= 'A' && c <= 'Z' || c >= 192 && c <= 222 && c != 215;
    }

    public static boolean isLowerCase(char c) {
        known(c);
        return c >= 'a' && c <= 'z' || c >= 223 && c != 247 || c == 170 || c == 181 || c == 186;
    }

    public static boolean isLetter(char c) {
        return isUpperCase(c) || isLowerCase(c);
    }

    public static boolean isAlphabetic(int c) {
        return isLetter((char) c);
    }

    public static boolean isLetterOrDigit(char c) {
        return isLetter(c) || isDigit(c);
    }

    public static boolean isWhitespace(char c) {
        known(c);
        return c == ' ' || c >= 9 && c <= 13 || c >= 28 && c <= 31;
    }

    public static boolean isSpaceChar(char c) {
        known(c);
        return c == ' ' || c == 160;
    }

    public static char toUpperCase(char c) {
        if (!isLowerCase(c) || c == 170 || c == 186 || c == 223) {
            return c;
        }
        if (c == 181) {
            return 924;
        }
        return c == 255 ? (char) 376 : (char) (c - 32);
    }

    public static char toLowerCase(char c) {
        return isUpperCase(c) ? (char) (c + 32) : c;
    }

    public static int digit(char c, int radix) {
        int digit = -1;
        if (isDigit(c)) {
            digit = c - '0';
        } else if (c < 128 && isLetter(c)) {
            digit = toLowerCase(c) - 'a' + 10;
        }
        return digit < radix ? digit : -1;
    }

    public static char forDigit(int digit, int radix) {
        if (digit < 0 || digit >= radix) {
            return '\0';
        }
        return digit < 10 ? (char) ('0' + digit) : (char) ('a' + digit - 10);
    }

    public static int getNumericValue(char c) {
        if (c > 127) {
            throw new UnsupportedOperationException("the number of a character over 127");
        }
        return digit(c, 36);
    }

    public static int compare(char one, char other) {
        return one - other;
    }

    public static String toString(char c) {
        return "" + c;
    }

    public static int hashCode(char c) {
        return c;
    }

    public char charValue() {
        return value;
    }

    public int compareTo(Character other) {
        return value - other.value;
    }

    public boolean equals(Object other) {
        return other instanceof Character && ((Character) other).value == value;
    }

    public int hashCode() {
        return value;
    }

    public String toString() {
        return "" + value;
    }

    // characters that are given as numbers

    public static boolean isDigit(int c) {
        return isDigit((char) c);
    }

    public static boolean isUpperCase(int c) {
        return isUpperCase((char) c);
    }

    public static boolean isLowerCase(int c) {
        return isLowerCase((char) c);
    }

    public static boolean isLetter(int c) {
        return isLetter((char) c);
    }

    public static boolean isLetterOrDigit(int c) {
        return isLetterOrDigit((char) c);
    }

    public static boolean isWhitespace(int c) {
        return isWhitespace((char) c);
    }

    public static boolean isSpaceChar(int c) {
        return isSpaceChar((char) c);
    }

    public static int toUpperCase(int c) {
        return toUpperCase((char) c);
    }

    public static int toLowerCase(int c) {
        return toLowerCase((char) c);
    }

    public static int digit(int c, int radix) {
        return digit((char) c, radix);
    }

    public static int getNumericValue(int c) {
        return getNumericValue((char) c);
    }

    public static String toString(int c) {
        return "" + (char) c;
    }

    public static boolean isISOControl(char c) {
        return c <= 31 || c >= 127 && c <= 159;
    }

    private static boolean isCurrency(char c) {
        return c == '$' || c >= 162 && c <= 165;
    }

    public static boolean isJavaIdentifierStart(char c) {
        return isLetter(c) || c == '_' || isCurrency(c);
    }

    public static boolean isJavaIdentifierPart(char c) {
        boolean ignored = c <= 8 || c >= 14 && c <= 27 || c >= 127 && c <= 159 || c == 173;
        return isJavaIdentifierStart(c) || isDigit(c) || ignored;
    }

    public static boolean isJavaIdentifierStart(int c) {
        return isJavaIdentifierStart((char) c);
    }

    public static boolean isJavaIdentifierPart(int c) {
        return isJavaIdentifierPart((char) c);
    }
}
