package java.util.regex;

final class GroupEnd extends Node {
    int group;

    boolean fits(Matcher matcher, int at) {
        int first = matcher.starts[group];
        int last = matcher.ends[group];
        matcher.starts[group] = matcher.opened[group];
        matcher.ends[group] = at;
        boolean found = next.fits(matcher, at);
        if (!found) {
            matcher.starts[group] = first;
            matcher.ends[group] = last;
        }
        return found;
    }
}
