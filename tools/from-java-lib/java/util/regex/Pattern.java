package java.util.regex;

import java.util.ArrayList;
import java.util.List;
import java.util.function.Predicate;

public final class Pattern {
    public static final int CASE_INSENSITIVE = 2;
    public static final int MULTILINE = 8;
    public static final int DOTALL = 32;
    private String pattern;
    Node first;
    int groups;
    int loops;
    List<String> names;

    public static Pattern compile(String pattern) {
        return compile(pattern, 0);
    }

    public static Pattern compile(String pattern, int flags) {
        Reader reader = new Reader();
        Pattern made = new Pattern();
        made.pattern = pattern;
        made.first = reader.read(pattern, flags);
        made.groups = reader.groups;
        made.loops = reader.loops;
        made.names = reader.names;
        return made;
    }

    public static boolean matches(String pattern, CharSequence text) {
        return compile(pattern).matcher(text.toString()).matches();
    }

    public static boolean matches(String pattern, String text) {
        return compile(pattern).matcher(text).matches();
    }

    public static String quote(String text) {
        return "\\Q" + text + "\\E";
    }

    public Matcher matcher(CharSequence text) {
        return matcher(text.toString());
    }

    public Matcher matcher(String text) {
        Matcher made = new Matcher();
        made.pattern = this;
        made.text = text;
        made.counts = new int[loops];
        made.begun = new int[loops];
        made.opened = new int[groups];
        made.starts = new int[groups];
        made.ends = new int[groups];
        made.reset();
        return made;
    }

    public String pattern() {
        return pattern;
    }

    public Predicate<String> asPredicate() {
        return text -> matcher(text).find();
    }

    public Predicate<String> asMatchPredicate() {
        return text -> matcher(text).matches();
    }

    public String[] split(CharSequence text) {
        return split(text.toString(), 0);
    }

    public String[] split(CharSequence text, int most) {
        return split(text.toString(), most);
    }

    public String[] split(String text) {
        return split(text, 0);
    }

    public String[] split(String whole, int most) {
        List<String> parts = new ArrayList<>();
        Matcher matcher = matcher(whole);
        int from = 0;
        while ((most <= 0 || parts.size() < most - 1) && matcher.find()) {
            if (matcher.end() > 0) {
                parts.add(whole.substring(from, matcher.start()));
                from = matcher.end();
            }
        }
        boolean none = from == 0;
        parts.add(whole.substring(from));
        String[] all = new String[parts.size()];
        for (int k = 0; k < all.length; k++) {
            all[k] = parts.get(k);
        }
        return String.kept(all, all.length, most == 0 && !none);
    }

    public String toString() {
        return pattern;
    }
}
