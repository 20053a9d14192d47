package java.util.regex;

/** A set again and again: as often as it goes, or as seldom. */
final class Run extends Node {
    OneOf set;
    int least;
    int most;
    boolean lazy;
    boolean keeps;

    boolean fits(Matcher matcher, int at) {
        int count = 0;
        while (count < least) {
            if (!isAt(matcher, at + count)) {
                return false;
            }
            count++;
        }
        if (lazy) {
            while (!next.fits(matcher, at + count)) {
                if (count == most || !isAt(matcher, at + count)) {
                    return false;
                }
                count++;
            }
            return true;
        }
        while (count < most && isAt(matcher, at + count)) {
            count++;
        }
        while (!next.fits(matcher, at + count)) {
            if (count == least || keeps) {
                return false;
            }
            count--;
        }
        return true;
    }

    private boolean isAt(Matcher matcher, int at) {
        return at < matcher.text.length() && set.has(matcher.text.charAt(at));
    }
}
