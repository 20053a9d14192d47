package java.util;

public class StringTokenizer {
    private String text;
    private String marks;
    private boolean givesMarks;
    private int at;

    public StringTokenizer(String text) {
        this(text, " \t\n\r\f", false);
    }

    public StringTokenizer(String text, String marks) {
        this(text, marks, false);
    }

    public StringTokenizer(String text, String marks, boolean givesMarks) {
        this.text = text;
        this.marks = marks;
        this.givesMarks = givesMarks;
    }

    private boolean isMark(int place) {
        return marks.indexOf(text.charAt(place)) >= 0;
    }

    private int begin(int from) {
        int place = from;
        while (!givesMarks && place < text.length() && isMark(place)) {
            place++;
        }
        return place;
    }

    private int end(int from) {
        int place = from;
        while (place < text.length() && !isMark(place)) {
            place++;
        }
        return givesMarks && place == from && place < text.length() ? place + 1 : place;
    }

    public boolean hasMoreTokens() {
        return begin(at) < text.length();
    }

    public boolean hasMoreElements() {
        return hasMoreTokens();
    }

    public String nextToken() {
        int from = begin(at);
        if (from >= text.length()) {
            throw new NoSuchElementException();
        }
        at = end(from);
        return text.substring(from, at);
    }

    public String nextToken(String marks) {
        this.marks = marks;
        return nextToken();
    }

    public int countTokens() {
        int count = 0;
        int from = begin(at);
        while (from < text.length()) {
            count++;
            from = begin(end(from));
        }
        return count;
    }
}
