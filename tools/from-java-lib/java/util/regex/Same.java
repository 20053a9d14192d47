package java.util.regex;

/** What a group took, once more. */
final class Same extends Node {
    int group;

    boolean fits(Matcher matcher, int at) {
        if (matcher.starts[group] < 0) {
            return false;
        }
        String part = matcher.text.substring(matcher.starts[group], matcher.ends[group]);
        return matcher.text.startsWith(part, at) && next.fits(matcher, at + part.length());
    }
}
