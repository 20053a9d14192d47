package java.util.regex;

final class GroupStart extends Node {
    int group;

    boolean fits(Matcher matcher, int at) {
        int old = matcher.opened[group];
        matcher.opened[group] = at;
        boolean found = next.fits(matcher, at);
        if (!found) {
            matcher.opened[group] = old;
        }
        return found;
    }
}
