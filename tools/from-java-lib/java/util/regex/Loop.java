package java.util.regex;

/** A part again and again; the part comes back to this step. */
final class Loop extends Node {
    Node body;
    int slot;
    int least;
    int most;
    boolean lazy;

    boolean fits(Matcher matcher, int at) {
        int count = matcher.counts[slot];
        int begun = matcher.begun[slot];
        if (count >= least && at == begun) {
            return next.fits(matcher, at);
        }
        if (count < least) {
            return again(matcher, at, count, begun);
        }
        if (lazy) {
            return next.fits(matcher, at) || count < most && again(matcher, at, count, begun);
        }
        return count < most && again(matcher, at, count, begun) || next.fits(matcher, at);
    }

    private boolean again(Matcher matcher, int at, int count, int begun) {
        matcher.counts[slot] = count + 1;
        matcher.begun[slot] = at;
        boolean found = body.fits(matcher, at);
        matcher.counts[slot] = count;
        matcher.begun[slot] = begun;
        return found;
    }
}
