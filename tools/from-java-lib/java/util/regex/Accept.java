package java.util.regex;

/** The end of a pattern. */
final class Accept extends Node {
    boolean fits(Matcher matcher, int at) {
        if (matcher.whole && at != matcher.text.length()) {
            return false;
        }
        matcher.reached = at;
        return true;
    }
}
