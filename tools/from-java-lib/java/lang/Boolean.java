package java.lang;

public final class Boolean implements Comparable<Boolean> {
    public static final Boolean TRUE = valueOf(true);
    public static final Boolean FALSE = valueOf(false);
    boolean value;

    public static Boolean valueOf(boolean value) {
        Boolean made = new Boolean();
        made.value = value;
        return made;
    }

    public static boolean parseBoolean(String text) {
        return text != null && text.equalsIgnoreCase("true");
    }

    public static String toString(boolean value) {
        return "" + value;
    }

    public static int compare(boolean one, boolean other) {
        return one == other ? 0 : one ? 1 : -1;
    }

    public static int hashCode(boolean value) {
        return value ? 1231 : 1237;
    }

    public boolean booleanValue() {
        return value;
    }

    public int compareTo(Boolean other) {
        return compare(value, other.value);
    }

    public boolean equals(Object other) {
        return other instanceof Boolean && ((Boolean) other).value == value;
    }

    public int hashCode() {
        return hashCode(value);
    }

    public String toString() {
        return "" + value;
    }

    public static Boolean valueOf(String text) {
        return valueOf(parseBoolean(text));
    }

    public static boolean logicalAnd(boolean one, boolean other) {
        return one & other;
    }

    public static boolean logicalOr(boolean one, boolean other) {
        return one | other;
    }

    public static boolean logicalXor(boolean one, boolean other) {
        return one ^ other;
    }
}
