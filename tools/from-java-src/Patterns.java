import java.util.ArrayList;
import java.util.List;

/** Patterns that are constants: a plain text needs no patterns when the program runs. */
final class Patterns {
    private static final String MARKS = "\\[](){}.*+?^$|";

    private Patterns() {
    }

    /** The plain text that a pattern stands for, or null. */
    private static String text(Ex pattern) {
        String all = Literals.textOf(pattern);
        if (all == null) {
            return null;
        }
        StringBuilder text = new StringBuilder();
        for (int k = 0; k < all.length(); k++) {
            char c = all.charAt(k);
            boolean escapes = c == '\\' && k + 1 < all.length() && !Character.isLetterOrDigit(all.charAt(k + 1));
            if (!escapes && MARKS.indexOf(c) >= 0) {
                return null;
            }
            text.append(escapes ? all.charAt(++k) : c);
        }
        return text.toString();
    }

    /** Whether the `split` of the library takes a pattern, which knows no other than these. */
    static boolean isKnown(Ex pattern) {
        String all = Literals.textOf(pattern);
        boolean space = all != null && List.of("\\s+", " +", "\\s*,\\s*", "\\s").contains(all);
        String text = text(pattern);
        return space || text != null && (text.equals(all) || text.length() == 1);
    }

    /** `replace` for a `replaceAll` of a plain text by a plain text; null for other calls. */
    static String plain(String name, List<Ex> values) {
        boolean replaces = name.equals("replaceAll") && values.size() == 2;
        String with = replaces ? Literals.textOf(values.get(1)) : null;
        boolean fits = with != null && with.indexOf('$') < 0 && with.indexOf('\\') < 0 && text(values.get(0)) != null
            && !text(values.get(0)).isEmpty();
        return fits ? "replace" : null;
    }

    static List<Ex> values(String name, List<Ex> values) {
        List<Ex> all = new ArrayList<>(values);
        all.set(0, Literals.string(text(values.get(0))));
        return all;
    }
}
