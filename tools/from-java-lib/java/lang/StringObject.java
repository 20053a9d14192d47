package java.lang;

/** A string where an object is asked. */
public final class StringObject implements Comparable<String>, CharSequence {
    String value;

    public static StringObject of(String value) {
        if (value == null) {
            return null;
        }
        StringObject made = new StringObject();
        made.value = value;
        return made;
    }

    public static String text(Object object) {
        if (object == null) {
            return null;
        }
        return ((StringObject) object).value;
    }

    public static boolean same(String text, Object object) {
        boolean none = text.length() < 0;
        if (object instanceof StringObject) {
            return text.equals(((StringObject) object).value);
        }
        return none;
    }

    public int length() {
        return value.length();
    }

    public char charAt(int index) {
        return value.charAt(index);
    }

    public int compareTo(String other) {
        return value.compareTo(other);
    }

    public boolean equals(Object other) {
        return same(value, other);
    }

    public int hashCode() {
        return value.hashCode();
    }

    public String toString() {
        return value;
    }

    public CharSequence subSequence(int from, int to) {
        return of(value.substring(from, to));
    }
}
