package java.util.regex;

import java.util.function.Function;

public final class Matcher {
    Pattern pattern;
    String text;
    boolean whole;
    int reached;
    int[] counts;
    int[] begun;
    int[] opened;
    int[] starts;
    int[] ends;
    private int from;

    public Matcher reset() {
        from = 0;
        starts[0] = -1;
        return this;
    }

    public Matcher reset(CharSequence other) {
        text = other.toString();
        return reset();
    }

    private boolean fitsAt(int at) {
        for (int k = 0; k < starts.length; k++) {
            starts[k] = -1;
            ends[k] = -1;
        }
        boolean found = pattern.first.fits(this, at);
        if (found) {
            starts[0] = at;
            ends[0] = reached;
            from = reached == at ? reached + 1 : reached;
        }
        return found;
    }

    public boolean matches() {
        whole = true;
        boolean found = fitsAt(0);
        whole = false;
        return found;
    }

    public boolean lookingAt() {
        return fitsAt(0);
    }

    public boolean find() {
        for (int k = from; k <= text.length(); k++) {
            if (fitsAt(k)) {
                return true;
            }
        }
        starts[0] = -1;
        from = text.length() + 1;
        return false;
    }

    public boolean find(int at) {
        if (at < 0 || at > text.length()) {
            throw new IndexOutOfBoundsException("Illegal start index");
        }
        reset();
        from = at;
        return find();
    }

    private void check(int group) {
        if (starts[0] < 0) {
            throw new IllegalStateException("No match found");
        }
        if (group < 0 || group >= starts.length) {
            throw new IndexOutOfBoundsException("No group " + group);
        }
    }

    public String group() {
        return group(0);
    }

    public String group(int group) {
        check(group);
        return starts[group] < 0 ? null : text.substring(starts[group], ends[group]);
    }

    public String group(String name) {
        int group = pattern.names.indexOf(name);
        if (group < 0) {
            throw new IllegalArgumentException("No group with name <" + name + ">");
        }
        return group(group);
    }

    public int groupCount() {
        return starts.length - 1;
    }

    public int start() {
        return start(0);
    }

    public int start(int group) {
        check(group);
        return starts[group];
    }

    public int end() {
        return end(0);
    }

    public int end(int group) {
        check(group);
        return ends[group];
    }

    public boolean hitEnd() {
        return from >= text.length();
    }

    public static String quoteReplacement(String text) {
        return text.replace("\\", "\\\\").replace("$", "\\$");
    }

    /** A replacement with what the groups took in the place of their numbers. */
    private String replacement(String with) {
        String made = "";
        int k = 0;
        while (k < with.length()) {
            char c = with.charAt(k);
            k++;
            if (c == '\\') {
                made = made + with.charAt(k);
                k++;
            } else if (c == '$' && k < with.length() && with.charAt(k) == '{') {
                int end = with.indexOf("}", k);
                String part = group(with.substring(k + 1, end));
                made = made + (part == null ? "" : part);
                k = end + 1;
            } else if (c == '$') {
                if (k == with.length() || with.charAt(k) < '0' || with.charAt(k) > '9') {
                    throw new IllegalArgumentException("Illegal group reference");
                }
                int group = with.charAt(k) - '0';
                k++;
                while (k < with.length() && with.charAt(k) >= '0' && with.charAt(k) <= '9'
                    && 10 * group + with.charAt(k) - '0' <= groupCount()) {
                    group = 10 * group + with.charAt(k) - '0';
                    k++;
                }
                String part = group(group);
                made = made + (part == null ? "" : part);
            } else {
                made = made + c;
            }
        }
        return made;
    }

    public String replaceAll(String with) {
        return replaced(with, false);
    }

    public String replaceFirst(String with) {
        return replaced(with, true);
    }

    private String replaced(String with, boolean once) {
        reset();
        String made = "";
        int done = 0;
        boolean more = find();
        while (more) {
            made = made + text.substring(done, start()) + replacement(with);
            done = end();
            more = !once && find();
        }
        return made + text.substring(done);
    }

    public String replaceAll(Function<Matcher, String> with) {
        reset();
        String made = "";
        int done = 0;
        while (find()) {
            made = made + text.substring(done, start()) + replacement(with.apply(this));
            done = end();
        }
        return made + text.substring(done);
    }
}
