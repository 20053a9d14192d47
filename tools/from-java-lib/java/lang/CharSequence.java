package java.lang;

import java.util.stream.IntStream;

public interface CharSequence {
    int length();

    char charAt(int index);

    CharSequence subSequence(int from, int to);

    String toString();

    default boolean isEmpty() {
        return length() == 0;
    }

    default IntStream chars() {
        return toString().chars();
    }

    static int compare(CharSequence one, CharSequence other) {
        return one.toString().compareTo(other.toString());
    }
}
