package java.util.regex;

import java.util.ArrayList;
import java.util.List;

/** A character of a set: pairs of a first and a last one, or all but these. */
final class OneOf extends Node {
    String ranges = "";
    boolean negated;
    boolean anyCase;
    List<OneOf> also = new ArrayList<>(); // sets whose characters belong to it too

    boolean has(char c) {
        boolean found = holds(c);
        if (!found && anyCase && c < 256) {
            found = holds(Character.toLowerCase(c)) || holds(Character.toUpperCase(c));
        }
        return found != negated;
    }

    private boolean holds(char c) {
        for (int k = 0; k < ranges.length(); k += 2) {
            if (c >= ranges.charAt(k) && c <= ranges.charAt(k + 1)) {
                return true;
            }
        }
        for (int k = 0; k < also.size(); k++) {
            if (also.get(k).has(c)) {
                return true;
            }
        }
        return false;
    }

    boolean fits(Matcher matcher, int at) {
        return at < matcher.text.length() && has(matcher.text.charAt(at)) && next.fits(matcher, at + 1);
    }
}
