package java.lang;

public final class StringBuilder implements CharSequence, Comparable<StringBuilder> {
    private String text = "";

    public StringBuilder() {
    }

    public StringBuilder(int capacity) {
    }

    public StringBuilder(String text) {
        this.text = text.toString();
    }

    public StringBuilder(CharSequence text) {
        this.text = text.toString();
    }

    public StringBuilder append(String more) {
        text = text + more;
        return this;
    }

    public StringBuilder append(int more) {
        text = text + more;
        return this;
    }

    public StringBuilder append(char more) {
        text = text + more;
        return this;
    }

    public StringBuilder append(boolean more) {
        text = text + more;
        return this;
    }

    public StringBuilder append(char[] more) {
        text = text + String.ofCharacters(more);
        return this;
    }

    public StringBuilder append(String more, int from, int to) {
        text = text + more.substring(from, to);
        return this;
    }

    /** Written by the tool as the append of its text. */
    public StringBuilder append(Object more) {
        text = text + more;
        return this;
    }

    public StringBuilder insert(int at, String more) {
        text = text.substring(0, at) + more + text.substring(at);
        return this;
    }

    public StringBuilder insert(int at, char more) {
        return insert(at, "" + more);
    }

    public StringBuilder insert(int at, int more) {
        return insert(at, "" + more);
    }

    public StringBuilder delete(int from, int to) {
        int end = to < text.length() ? to : text.length();
        text = text.substring(0, from) + text.substring(end);
        return this;
    }

    public StringBuilder deleteCharAt(int at) {
        if (at < 0 || at >= text.length()) {
            throw new StringIndexOutOfBoundsException("index " + at + ",length " + text.length());
        }
        return delete(at, at + 1);
    }

    public StringBuilder replace(int from, int to, String with) {
        int end = to < text.length() ? to : text.length();
        text = text.substring(0, from) + with + text.substring(end);
        return this;
    }

    public StringBuilder reverse() {
        text = text.reversed(0, text.length());
        return this;
    }

    public void setCharAt(int at, char c) {
        if (at < 0 || at >= text.length()) {
            throw new StringIndexOutOfBoundsException("index " + at + ",length " + text.length());
        }
        text = text.substring(0, at) + c + text.substring(at + 1);
    }

    public void setLength(int length) {
        if (length < text.length()) {
            text = text.substring(0, length);
        }
        while (text.length() < length) {
            text = text + '\0';
        }
    }

    public int length() {
        return text.length();
    }

    public boolean isEmpty() {
        return text.length() == 0;
    }

    public char charAt(int at) {
        return text.charAt(at);
    }

    public int indexOf(String part, int from) {
        return text.indexOf(part, from);
    }

    public int lastIndexOf(String part) {
        return text.lastIndexOf(part);
    }

    public int lastIndexOf(String part, int from) {
        return text.lastIndexOf(part, from);
    }

    public CharSequence subSequence(int from, int to) {
        return text.substring(from, to);
    }

    public StringBuilder append(CharSequence more) {
        text = text + more;
        return this;
    }

    public StringBuilder append(CharSequence more, int from, int to) {
        text = text + more.toString().substring(from, to);
        return this;
    }

    public StringBuilder append(char[] more, int from, int count) {
        text = text + String.ofCharacters(more, from, count);
        return this;
    }

    public StringBuilder appendCodePoint(int more) {
        text = text + (char) more;
        return this;
    }

    public StringBuilder insert(int at, boolean more) {
        return insert(at, "" + more);
    }

    public StringBuilder insert(int at, char[] more) {
        return insert(at, String.ofCharacters(more));
    }

    public StringBuilder insert(int at, Object more) {
        return insert(at, "" + more);
    }

    public void getChars(int from, int to, char[] into, int at) {
        text.getChars(from, to, into, at);
    }

    public int capacity() {
        return text.length() + 16;
    }

    public void ensureCapacity(int capacity) {
    }

    public void trimToSize() {
    }

    public int indexOf(String part) {
        return text.indexOf(part);
    }

    public String substring(int from) {
        return text.substring(from);
    }

    public String substring(int from, int to) {
        return text.substring(from, to);
    }

    public int compareTo(StringBuilder other) {
        return text.compareTo(other.text);
    }

    public String toString() {
        return text;
    }
}
