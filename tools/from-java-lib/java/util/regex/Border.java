package java.util.regex;

/** A place in the text: its begin, its end, or the border of a word. */
final class Border extends Node {
    char kind;
    boolean lines;

    boolean fits(Matcher matcher, int at) {
        return isHere(matcher.text, at) && next.fits(matcher, at);
    }

    private boolean isHere(String text, int at) {
        if (kind == '^' || kind == 'A') {
            return at == 0 || lines && kind == '^' && at < text.length() && text.charAt(at - 1) == '\n';
        }
        if (kind == '$' || kind == 'Z') {
            boolean last = at == text.length() || at == text.length() - 1 && text.charAt(at) == '\n';
            return last || lines && kind == '$' && text.charAt(at) == '\n';
        }
        if (kind == 'z') {
            return at == text.length();
        }
        boolean border = isWord(text, at - 1) != isWord(text, at);
        return kind == 'b' ? border : !border;
    }

    private static boolean isWord(String text, int at) {
        return at >= 0 && at < text.length() && (Character.isLetterOrDigit(text.charAt(at)) || text.charAt(at) == '_');
    }
}
