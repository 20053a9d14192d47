package java.util.regex;

final class LoopStart extends Node {
    Loop loop;

    boolean fits(Matcher matcher, int at) {
        int count = matcher.counts[loop.slot];
        int begun = matcher.begun[loop.slot];
        matcher.counts[loop.slot] = 0;
        matcher.begun[loop.slot] = -1;
        boolean found = loop.fits(matcher, at);
        matcher.counts[loop.slot] = count;
        matcher.begun[loop.slot] = begun;
        return found;
    }
}
