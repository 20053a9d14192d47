import java.util.HashMap;
import java.util.Map;

/** A type of the text: closed, that is without type variables. */
final class Ty {
    enum Kind { INT, BOOLEAN, CHAR, BYTE, SHORT, STRING, NULL, VOID, OBJECT, CLASS, ARRAY }

    static final Ty INT = new Ty(Kind.INT, null, null);
    static final Ty BOOLEAN = new Ty(Kind.BOOLEAN, null, null);
    static final Ty CHAR = new Ty(Kind.CHAR, null, null);
    static final Ty BYTE = new Ty(Kind.BYTE, null, null);
    static final Ty SHORT = new Ty(Kind.SHORT, null, null);
    static final Ty STRING = new Ty(Kind.STRING, null, null);
    static final Ty NULL = new Ty(Kind.NULL, null, null);
    static final Ty VOID = new Ty(Kind.VOID, null, null);
    static final Ty OBJECT = new Ty(Kind.OBJECT, null, null);
    private static final Map<Ty, Ty> ARRAYS = new HashMap<>();

    final Kind kind;
    final Copy copy;
    final Ty of;

    private Ty(Kind kind, Copy copy, Ty of) {
        this.kind = kind;
        this.copy = copy;
        this.of = of;
    }

    static Ty of(Copy copy) {
        return new Ty(Kind.CLASS, copy, null);
    }

    /** What tells the copies of a container apart that one variable holds; no type of a value. */
    static Ty tag(String name) {
        Copy copy = new Copy(-1, null, null, null, Map.of(), true);
        copy.name = name;
        return of(copy);
    }

    static Ty array(Ty of) {
        return ARRAYS.computeIfAbsent(of, o -> new Ty(Kind.ARRAY, null, o));
    }

    boolean is(Kind one) {
        return kind == one;
    }

    /** int, char, byte or short. */
    boolean isNumber() {
        return kind == Kind.INT || kind == Kind.CHAR || kind == Kind.BYTE || kind == Kind.SHORT;
    }

    boolean isPrimitive() {
        return isNumber() || kind == Kind.BOOLEAN;
    }

    boolean isReference() {
        return !isPrimitive() && kind != Kind.VOID;
    }

    /** Class, interface or Object: what a cast and an instanceof may name. */
    boolean isObject() {
        return kind == Kind.CLASS || kind == Kind.OBJECT;
    }

    /** The type as the text writes it; classes are tokens that the writer resolves. */
    String text() {
        return switch (kind) {
            case INT, BYTE, SHORT -> "int";
            case BOOLEAN -> "boolean";
            case CHAR -> "char";
            case STRING -> "String";
            case VOID -> "void";
            case NULL, OBJECT -> "Object";
            case CLASS -> copy.token();
            case ARRAY -> of.text() + "[]";
        };
    }

    /** What names of copies say of the type. */
    String key() {
        return switch (kind) {
            case CLASS -> copy.name;
            case ARRAY -> of.key() + "s";
            case BYTE -> "byte";
            case SHORT -> "short";
            default -> text();
        };
    }

    /** The value of a variable that nothing was put into. */
    String initial() {
        return switch (kind) {
            case INT, BYTE, SHORT -> "0";
            case BOOLEAN -> "false";
            case CHAR -> "(char) 0";
            default -> "null";
        };
    }

    /** The same type; byte and short are written as int but are types of their own. */
    boolean same(Ty other) {
        return this == other || kind == other.kind && copy == other.copy && kind != Kind.ARRAY;
    }

    @Override
    public boolean equals(Object other) {
        return other instanceof Ty ty && same(ty);
    }

    @Override
    public int hashCode() {
        return kind.hashCode() * 31 + (copy == null ? 0 : copy.number) + (of == null ? 0 : 7 * of.hashCode());
    }

    @Override
    public String toString() {
        return key();
    }
}
