package java.util.regex;

/** A step that takes nothing. */
final class Joint extends Node {
    boolean fits(Matcher matcher, int at) {
        return next.fits(matcher, at);
    }
}
