package java.util.regex;

/** A step of a pattern; the steps behind it are reached by `next`. */
abstract class Node {
    Node next;

    /** Whether the pattern fits from here on, from a place of the text. */
    abstract boolean fits(Matcher matcher, int at);
}
