import java.util.Set;
import java.util.TreeSet;

/** An expression of the text: its characters, how tightly it binds, its type, and what it depends on. */
final class Ex {
    static final int OR = 0, AND = 1, BIT_OR = 2, BIT_XOR = 3, BIT_AND = 4, EQUAL = 5, COMPARE = 6, SHIFT = 7,
        SUM = 8, PRODUCT = 9,
        PREFIX = 10, POST = 11;

    final String text;
    final int level;
    final Ty type;
    final boolean pure; // has no effect, meets no fault, and changes only where one of its locals does
    final Set<String> reads;

    Ex(String text, int level, Ty type, boolean pure, Set<String> reads) {
        this.text = text;
        this.level = level;
        this.type = type;
        this.pure = pure;
        this.reads = reads;
    }

    static Ex constant(String text, Ty type) {
        return new Ex(text, text.startsWith("-") || text.startsWith("(") ? PREFIX : POST, type, true, Set.of());
    }

    static Ex local(String name, Ty type) {
        return new Ex(name, POST, type, true, Set.of(name));
    }

    /** What may have an effect, meet a fault, or see another's effect. */
    static Ex active(String text, int level, Ty type) {
        return new Ex(text, level, type, false, Set.of());
    }

    static Ex binary(Ex left, String mark, int level, Ex right, Ty type) {
        boolean divides = (mark.equals("/") || mark.equals("%")) && !right.text.matches("[1-9][0-9]*");
        Set<String> reads = new TreeSet<>(left.reads);
        reads.addAll(right.reads);
        return new Ex(left.at(level) + " " + mark + " " + right.at(level + 1), level, type, left.pure && right.pure
            && !divides, reads);
    }

    Ex prefix(String mark, Ty as) {
        String operand = at(PREFIX);
        if (!mark.endsWith(")") && !mark.endsWith(" ") && operand.startsWith(mark)) {
            operand = "(" + operand + ")";
        }
        return new Ex(mark + operand, PREFIX, as, pure, reads);
    }

    /** A cast to int or char, which meets no fault. */
    Ex to(Ty as) {
        return prefix("(" + as.text() + ") ", as);
    }

    /** The same characters seen as another type. */
    Ex as(Ty other) {
        return new Ex(text, level, other, pure, reads);
    }

    /** The characters where something of a level is asked. */
    String at(int asked) {
        return level >= asked ? text : "(" + text + ")";
    }

    Ex not() {
        if (text.equals("true") || text.equals("false")) {
            return constant(text.equals("true") ? "false" : "true", Ty.BOOLEAN);
        }
        if (level == PREFIX && text.startsWith("!")) {
            String inner = text.substring(1);
            boolean wrapped = inner.startsWith("(") && matching(inner) == inner.length() - 1;
            return new Ex(wrapped ? inner.substring(1, inner.length() - 1) : inner, wrapped ? OR : POST, Ty.BOOLEAN,
                pure, reads);
        }
        return prefix("!", Ty.BOOLEAN);
    }

    private static int matching(String text) {
        int depth = 0;
        for (int k = 0; k < text.length(); k++) {
            char c = text.charAt(k);
            if (c == '"' || c == '\'') {
                for (k++; text.charAt(k) != c; k++) {
                    k += text.charAt(k) == '\\' ? 1 : 0;
                }
            }
            depth += c == '(' ? 1 : c == ')' ? -1 : 0;
            if (depth == 0) {
                return k;
            }
        }
        return -1;
    }

    boolean isNull() {
        return type.is(Ty.Kind.NULL);
    }
}
