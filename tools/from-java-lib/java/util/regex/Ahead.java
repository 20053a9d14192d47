package java.util.regex;

/** What must follow, or must not, and is not taken. */
final class Ahead extends Node {
    Node body;
    boolean not;

    boolean fits(Matcher matcher, int at) {
        boolean whole = matcher.whole;
        matcher.whole = false;
        boolean found = body.fits(matcher, at);
        matcher.whole = whole;
        return found != not && next.fits(matcher, at);
    }
}
