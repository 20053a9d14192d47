package java.lang;

import java.util.Comparator;
import java.util.function.Function;
import java.util.regex.Pattern;
import java.util.stream.IntStream;
import java.util.stream.Stream;

/** Methods of strings; in the text each takes the string as its first argument. */
public final class String implements Comparable<String>, CharSequence {
    public static final Comparator<String> CASE_INSENSITIVE_ORDER = (one, other) -> one.compareToIgnoreCase(other);

    public String() {
    }

    public String(String text) {
    }

    public String(char[] characters) {
    }

    public native int length();

    public native char charAt(int index);

    public native boolean equals(Object other);

    public native String toString();

    public static native String valueOf(Object value);

    public static native String valueOf(int value);

    public static native String valueOf(char value);

    public static native String valueOf(boolean value);

    public static native String format(String format, Object... values);

    public native String formatted(Object... values);

    public static String valueOf(char[] characters) {
        return ofCharacters(characters);
    }

    public static String copyValueOf(char[] characters) {
        return ofCharacters(characters);
    }

    public static String ofCharacters(char[] characters) {
        String text = "";
        for (int k = 0; k < characters.length; k++) {
            text = text + characters[k];
        }
        return text;
    }

    public IntStream chars() {
        int[] all = new int[length()];
        for (int k = 0; k < all.length; k++) {
            all[k] = charAt(k);
        }
        return IntStream.of(all);
    }

    private static void check(boolean fits, String text) {
        if (!fits) {
            throw new StringIndexOutOfBoundsException(text);
        }
    }

    public String substring(int from) {
        check(from >= 0 && from <= length(), "begin " + from + ", end " + length() + ", length " + length());
        return part(from, length());
    }

    public String substring(int from, int to) {
        check(from >= 0 && from <= to && to <= length(), "begin " + from + ", end " + to + ", length " + length());
        return part(from, to);
    }

    private String part(int from, int to) {
        if (to - from > 32) {
            int middle = (from + to) / 2;
            return part(from, middle) + part(middle, to);
        }
        String text = "";
        for (int k = from; k < to; k++) {
            text = text + charAt(k);
        }
        return text;
    }

    public String reversed(int from, int to) {
        String text = "";
        for (int k = to - 1; k >= from; k--) {
            text = text + charAt(k);
        }
        return text;
    }

    public CharSequence subSequence(int from, int to) {
        return substring(from, to);
    }

    public boolean isEmpty() {
        return length() == 0;
    }

    public boolean isBlank() {
        return strip().length() == 0;
    }

    public int indexOf(int c) {
        return indexOf(c, 0);
    }

    public int indexOf(int c, int from) {
        for (int k = from < 0 ? 0 : from; k < length(); k++) {
            if (charAt(k) == c) {
                return k;
            }
        }
        return -1;
    }

    public int lastIndexOf(int c) {
        return lastIndexOf(c, length() - 1);
    }

    public int lastIndexOf(int c, int from) {
        for (int k = from < length() ? from : length() - 1; k >= 0; k--) {
            if (charAt(k) == c) {
                return k;
            }
        }
        return -1;
    }

    public int indexOf(String part) {
        return indexOf(part, 0);
    }

    public int indexOf(String part, int from) {
        for (int k = from < 0 ? 0 : from; k + part.length() <= length(); k++) {
            if (startsWith(part, k)) {
                return k;
            }
        }
        if (part.length() == 0 && from >= length()) {
            return length();
        }
        return -1;
    }

    public int lastIndexOf(String part) {
        return lastIndexOf(part, length());
    }

    public int lastIndexOf(String part, int from) {
        int last = length() - part.length();
        for (int k = from < last ? from : last; k >= 0; k--) {
            if (startsWith(part, k)) {
                return k;
            }
        }
        return -1;
    }

    public boolean contains(String part) {
        return indexOf(part) >= 0;
    }

    public boolean startsWith(String part) {
        return startsWith(part, 0);
    }

    public boolean startsWith(String part, int from) {
        if (from < 0 || from + part.length() > length()) {
            return false;
        }
        for (int k = 0; k < part.length(); k++) {
            if (charAt(from + k) != part.charAt(k)) {
                return false;
            }
        }
        return true;
    }

    public boolean endsWith(String part) {
        return startsWith(part, length() - part.length());
    }

    public int compareTo(String other) {
        int least = length() < other.length() ? length() : other.length();
        for (int k = 0; k < least; k++) {
            if (charAt(k) != other.charAt(k)) {
                return charAt(k) - other.charAt(k);
            }
        }
        return length() - other.length();
    }

    public int compareToIgnoreCase(String other) {
        return toUpperCase().toLowerCase().compareTo(other.toUpperCase().toLowerCase());
    }

    public boolean equalsIgnoreCase(String other) {
        return other != null && length() == other.length()
            && toUpperCase().toLowerCase().equals(other.toUpperCase().toLowerCase());
    }

    public int hashCode() {
        int hash = 0;
        for (int k = 0; k < length(); k++) {
            hash = 31 * hash + charAt(k);
        }
        return hash;
    }

    public String toUpperCase() {
        String text = "";
        for (int k = 0; k < length(); k++) {
            text = text + (charAt(k) == 223 ? "SS" : "" + Character.toUpperCase(charAt(k)));
        }
        return text;
    }

    public String toLowerCase() {
        String text = "";
        for (int k = 0; k < length(); k++) {
            text = text + Character.toLowerCase(charAt(k));
        }
        return text;
    }

    public String trim() {
        int from = 0;
        int to = length();
        while (from < to && charAt(from) <= ' ') {
            from++;
        }
        while (to > from && charAt(to - 1) <= ' ') {
            to--;
        }
        return part(from, to);
    }

    public String strip() {
        int from = 0;
        int to = length();
        while (from < to && Character.isWhitespace(charAt(from))) {
            from++;
        }
        while (to > from && Character.isWhitespace(charAt(to - 1))) {
            to--;
        }
        return part(from, to);
    }

    public String concat(String other) {
        return part(0, length()) + part2(other);
    }

    private static String part2(String other) {
        return other.substring(0);
    }

    public String repeat(int count) {
        if (count < 0) {
            throw new IllegalArgumentException("count is negative: " + count);
        }
        String text = "";
        for (int k = 0; k < count; k++) {
            text = text + part(0, length());
        }
        return text;
    }

    public String replace(char one, char other) {
        String text = "";
        for (int k = 0; k < length(); k++) {
            text = text + (charAt(k) == one ? other : charAt(k));
        }
        return text;
    }

    public String replace(String part, String with) {
        return replaced(part, with);
    }

    private String replaced(String part, String with) {
        String text = "";
        int k = 0;
        if (part.length() == 0) {
            for (; k < length(); k++) {
                text = text + with + charAt(k);
            }
            return text + with;
        }
        while (k < length()) {
            if (startsWith(part, k)) {
                text = text + with;
                k += part.length();
            } else {
                text = text + charAt(k);
                k++;
            }
        }
        return text;
    }

    public char[] toCharArray() {
        char[] all = new char[length()];
        for (int k = 0; k < all.length; k++) {
            all[k] = charAt(k);
        }
        return all;
    }

    public String[] split(String by) {
        return split(by, 0);
    }

    /** Splits at a plain text, at white space, or at a comma with white space about it. */
    public String[] split(String by, int most) {
        String[] parts = new String[length() + 1];
        int count = 0;
        int from = 0;
        int k = by.length() == 0 ? 1 : 0;
        while (k < length() && (most <= 0 || count < most - 1)) {
            int end = by.length() == 0 ? k : separator(by, k);
            if (end > k || by.length() == 0) {
                parts[count] = part(from, k);
                count++;
                from = end;
            }
            k = end > k ? end : k + 1;
        }
        parts[count] = part(from, length());
        return kept(parts, count + 1, most == 0 && from > 0);
    }

    /** The first parts; without those at the end that are empty where that is asked. */
    public static String[] kept(String[] parts, int count, boolean trims) {
        int size = count;
        while (trims && size > 0 && parts[size - 1].length() == 0) {
            size--;
        }
        String[] all = new String[size];
        for (int n = 0; n < size; n++) {
            all[n] = parts[n];
        }
        return all;
    }

    // patterns, which are known when the program runs

    public String[] splitBy(String pattern) {
        return Pattern.compile(pattern).split(this, 0);
    }

    public String[] splitBy(String pattern, int most) {
        return Pattern.compile(pattern).split(this, most);
    }

    public boolean matches(String pattern) {
        return Pattern.matches(pattern, this);
    }

    public String replaceAll(String pattern, String with) {
        return Pattern.compile(pattern).matcher(this).replaceAll(with);
    }

    public String replaceFirst(String pattern, String with) {
        return Pattern.compile(pattern).matcher(this).replaceFirst(with);
    }

    /** The end of the separator that stands at a place, or the place itself. */
    private int separator(String by, int at) {
        if (by.equals("\\s+") || by.equals(" +") || by.equals("\\s*,\\s*")) {
            int end = spaces(at, by.equals(" +"));
            if (!by.equals("\\s*,\\s*")) {
                return end;
            }
            return end < length() && charAt(end) == ',' ? spaces(end + 1, false) : at;
        }
        if (by.equals("\\s")) {
            return Character.isWhitespace(charAt(at)) ? at + 1 : at;
        }
        String text = by;
        if (by.length() == 2 && by.charAt(0) == '\\' && !Character.isLetterOrDigit(by.charAt(1))) {
            text = "" + by.charAt(1);
        } else {
            for (int k = 0; k < by.length(); k++) {
                if ("\\[](){}.*+?^$|".indexOf(by.charAt(k)) >= 0) {
                    throw new UnsupportedOperationException("split by the pattern " + by);
                }
            }
        }
        return startsWith(text, at) ? at + text.length() : at;
    }

    private int spaces(int at, boolean plain) {
        int end = at;
        while (end < length() && (plain ? charAt(end) == ' ' : Character.isWhitespace(charAt(end)))) {
            end++;
        }
        return end;
    }

    public static String join(String by, String... parts) {
        String text = "";
        for (int k = 0; k < parts.length; k++) {
            text = text + (k == 0 ? "" : by) + parts[k];
        }
        return text;
    }

    public static String join(String by, Iterable<String> parts) {
        String text = "";
        boolean first = true;
        for (String part : parts) {
            text = text + (first ? "" : by) + part;
            first = false;
        }
        return text;
    }

    // what formats are written with

    public static String padded(String text, int width, boolean left) {
        while (text.length() < width) {
            text = left ? text + " " : " " + text;
        }
        return text;
    }

    public static String filled(String text, int width) {
        String zeros = "";
        while (zeros.length() + text.length() < width) {
            zeros = zeros + "0";
        }
        return zeros + text;
    }

    public static String cut(String text, int most) {
        return text.length() > most ? text.substring(0, most) : text;
    }

    public static String number(int value, int width, boolean groups, boolean sign) {
        String digits = "" + value;
        String front = value < 0 ? "-" : sign ? "+" : "";
        if (value < 0) {
            digits = digits.substring(1);
        }
        if (groups) {
            for (int k = digits.length() - 3; k > 0; k -= 3) {
                digits = digits.substring(0, k) + "," + digits.substring(k);
            }
        }
        while (front.length() + digits.length() < width) {
            digits = "0" + digits;
        }
        return front + digits;
    }

    public static String hexadecimal(int value, boolean upper) {
        String text = Integer.toHexString(value);
        return upper ? text.toUpperCase() : text;
    }

    public String(char[] characters, int from, int count) {
    }

    public String(StringBuilder text) {
    }

    public static String valueOf(char[] characters, int from, int count) {
        return ofCharacters(characters, from, count);
    }

    public static String copyValueOf(char[] characters, int from, int count) {
        return ofCharacters(characters, from, count);
    }

    public static String ofCharacters(char[] characters, int from, int count) {
        check(from >= 0 && count >= 0 && from <= characters.length - count, "offset " + from + ", count " + count
            + ", length " + characters.length);
        String text = "";
        for (int k = from; k < from + count; k++) {
            text = text + characters[k];
        }
        return text;
    }

    public boolean contains(CharSequence part) {
        return indexOf(part.toString()) >= 0;
    }

    public boolean contentEquals(CharSequence other) {
        return equals(other.toString());
    }

    public String replace(CharSequence part, CharSequence with) {
        return replaced(part.toString(), with.toString());
    }

    public String intern() {
        return this;
    }

    public String indent(int count) {
        String text = "";
        String[] all = split("\n", 0);
        for (int k = 0; k < all.length; k++) {
            String line = all[k];
            int spaces = 0;
            while (spaces < -count && spaces < line.length() && Character.isWhitespace(line.charAt(spaces))) {
                spaces++;
            }
            text = text + (count > 0 ? " ".repeat(count) : "") + line.substring(spaces) + "\n";
        }
        return length() == 0 ? "" : text;
    }

    public String stripLeading() {
        int from = 0;
        while (from < length() && Character.isWhitespace(charAt(from))) {
            from++;
        }
        return part(from, length());
    }

    public String stripTrailing() {
        int to = length();
        while (to > 0 && Character.isWhitespace(charAt(to - 1))) {
            to--;
        }
        return part(0, to);
    }

    public Stream<String> lines() {
        if (length() == 0) {
            return Stream.<String>empty();
        }
        String[] all = replace("\r\n", "\n").replace('\r', '\n').split("\n", -1);
        return Stream.<String>of(kept(all, endsWith("\n") || endsWith("\r") ? all.length - 1 : all.length, false));
    }

    public boolean regionMatches(int from, String other, int at, int count) {
        return regionMatches(false, from, other, at, count);
    }

    public boolean regionMatches(boolean anyCase, int from, String other, int at, int count) {
        if (from < 0 || at < 0 || from > length() - count || at > other.length() - count) {
            return false;
        }
        String one = part(from, from + count);
        String two = other.substring(at, at + count);
        return anyCase ? one.equalsIgnoreCase(two) : one.equals(two);
    }

    public int codePointAt(int index) {
        return charAt(index);
    }

    public void getChars(int from, int to, char[] into, int at) {
        for (int k = from; k < to; k++) {
            into[at + k - from] = charAt(k);
        }
    }

    public <R> R transform(Function<String, R> change) {
        return change.apply(this);
    }
}
