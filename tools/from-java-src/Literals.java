import java.util.Set;

/** Constants as the text writes them. */
final class Literals {
    private Literals() {
    }

    static Ex of(Object value, Ty type) {
        if (type.is(Ty.Kind.CHAR) && value instanceof Integer number) {
            return of((char) (int) number);
        }
        Ex made = of(value);
        return made.type.is(Ty.Kind.INT) && type.isNumber() ? made.as(type) : made;
    }

    static Ex of(Object value) {
        if (value == null) {
            return Ex.constant("null", Ty.NULL);
        }
        if (value instanceof Boolean) {
            return Ex.constant(value.toString(), Ty.BOOLEAN);
        }
        if (value instanceof Character c) {
            return character(c);
        }
        if (value instanceof String text) {
            return string(text);
        }
        return Ex.constant(value.toString(), Ty.INT);
    }

    private static String escape(char c, char quote) {
        switch (c) {
            case '\b': return "\\b";
            case '\t': return "\\t";
            case '\n': return "\\n";
            case '\f': return "\\f";
            case '\r': return "\\r";
            case '\\': return "\\\\";
            default: return c == quote ? "\\" + c : "" + c;
        }
    }

    private static boolean isPlain(char c) {
        return c >= ' ' && c != 127 && !Character.isSurrogate(c) || "\b\t\n\f\r".indexOf(c) >= 0;
    }

    static Ex character(char c) {
        return isPlain(c) ? Ex.constant("'" + escape(c, '\'') + "'", Ty.CHAR)
            : new Ex("(char) " + (int) c, Ex.PREFIX, Ty.CHAR, true, Set.of());
    }

    /** A string; what no literal can hold is joined to it. */
    static Ex string(String text) {
        StringBuilder made = new StringBuilder("\"");
        boolean joined = false;
        for (int k = 0; k < text.length(); k++) {
            char c = text.charAt(k);
            boolean pair = Character.isHighSurrogate(c) && k + 1 < text.length()
                && Character.isLowSurrogate(text.charAt(k + 1));
            if (pair) {
                made.append(c).append(text.charAt(++k));
            } else if (isPlain(c)) {
                made.append(escape(c, '"'));
            } else {
                joined = true;
                made.append("\" + (char) ").append((int) c).append(" + \"");
            }
        }
        return new Ex(made.append('"').toString(), joined ? Ex.SUM : Ex.POST, Ty.STRING, true, Set.of());
    }

    /** The characters of a constant string, or null where it is none. */
    static String textOf(Ex value) {
        if (!value.type.is(Ty.Kind.STRING) || value.level != Ex.POST || !value.text.startsWith("\"")) {
            return null;
        }
        return value.text.substring(1, value.text.length() - 1).translateEscapes();
    }

    /** The character that a constant number is, or null. */
    static Ex narrowed(Ex number) {
        return number.text.matches("[0-9]+") ? character((char) Integer.parseInt(number.text)) : null;
    }
}
