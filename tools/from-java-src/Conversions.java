import com.sun.source.tree.Tree;
import java.util.ArrayList;
import java.util.LinkedHashMap;
import java.util.List;
import java.util.Map;
import javax.lang.model.element.TypeElement;

/** Values of one type as values of another, as Java does it without being told, and casts. */
final class Conversions {
    private static final Map<Ty.Kind, String> BOXES = Map.of(Ty.Kind.INT, "Integer", Ty.Kind.CHAR, "Character",
        Ty.Kind.BOOLEAN, "Boolean",
        Ty.Kind.BYTE, "Integer", Ty.Kind.SHORT, "Integer");
    private final Body body;

    Conversions(Body body) {
        this.body = body;
    }

    /** A class of the library without variables. */
    Copy library(String name) {
        TypeElement element = body.world.sources.elements.getTypeElement("java.lang." + name);
        return body.world.copy(element, new LinkedHashMap<>());
    }

    boolean isBox(Ty type) {
        return type.is(Ty.Kind.CLASS) && type.copy.element != null && type.copy.isLibrary
            && type.copy.element.toString().matches("java\\.lang\\.(Integer|Character|Boolean)");
    }

    // ---- implicit conversions

    Ex convert(Ex value, Ty to, Tree at) {
        Ty from = value.type;
        if (from.same(to) || to.is(Ty.Kind.VOID) || from.is(Ty.Kind.VOID)) {
            return value;
        }
        if (to.isPrimitive()) {
            return from.isPrimitive() ? number(value, to) : number(primitive(value, at), to);
        }
        if (from.isPrimitive()) {
            boolean narrows = isBox(to) && to.copy.element.getSimpleName().contentEquals("Character");
            return convert(box(narrows ? number(value, Ty.CHAR) : value), to, at);
        }
        if (from.is(Ty.Kind.NULL)) {
            return value;
        }
        if (from.is(Ty.Kind.STRING) || to.is(Ty.Kind.STRING)) {
            return from.is(Ty.Kind.STRING) ? convert(wrapped(value), to, at) : unwrapped(value);
        }
        return reference(value, to, at);
    }

    private Ex reference(Ex value, Ty to, Tree at) {
        Ty from = value.type;
        if (to.is(Ty.Kind.OBJECT)) {
            if (body.world.isApart(from) && !body.owner.env.containsKey(body.world.tag)) {
                return mismatch(value, to, at);
            }
            return from.is(Ty.Kind.ARRAY) ? body.obstacleEx(at, "array as Object",
                "give the variable the array's own type") : value;
        }
        if (from.is(Ty.Kind.ARRAY) || to.is(Ty.Kind.ARRAY)) {
            boolean fits = from.is(Ty.Kind.ARRAY) && to.is(Ty.Kind.ARRAY) && fitsElement(from.of, to.of);
            return fits ? value.as(to) : mismatch(value, to, at);
        }
        if (from.is(Ty.Kind.OBJECT)) {
            return cast(value, to, at);
        }
        if (from.copy.isBelow(to.copy)) {
            return value;
        }
        return to.copy.isBelow(from.copy) ? cast(value, to, at) : mismatch(value, to, at);
    }

    private boolean fitsElement(Ty from, Ty to) {
        return from.same(to) || from.is(Ty.Kind.CLASS) && to.is(Ty.Kind.CLASS) && from.copy.isBelow(to.copy)
            || from.is(Ty.Kind.CLASS) && to.is(Ty.Kind.OBJECT) || from.is(Ty.Kind.ARRAY) && to.is(Ty.Kind.ARRAY)
                && fitsElement(from.of, to.of);
    }

    private Ex mismatch(Ex value, Ty to, Tree at) {
        body.obstacle(at, "generics", "a value of the copy " + value.type + " stands where one of " + to
            + " is asked: there is one copy of a class for each type argument; give both the same type argument");
        return value.as(to);
    }

    /** A number as another: a constant as a character, a character as an int, which needs no word. */
    private Ex number(Ex value, Ty to) {
        if (to.is(Ty.Kind.CHAR) && !value.type.is(Ty.Kind.CHAR)) {
            Ex literal = Literals.narrowed(value);
            return literal != null ? literal : value.to(Ty.CHAR);
        }
        return value.type.is(Ty.Kind.CHAR) && to.isNumber() ? value : value.as(to);
    }

    /** What a cast or a compound assignment makes of a number. */
    Ex narrow(Ex value, Ty to) {
        if (value.type.same(to) || to.is(Ty.Kind.BOOLEAN)) {
            return value;
        }
        if (to.is(Ty.Kind.CHAR)) {
            return number(value, Ty.CHAR);
        }
        if (to.is(Ty.Kind.INT)) {
            return value.type.is(Ty.Kind.CHAR) ? value.to(Ty.INT) : value.as(Ty.INT);
        }
        if (value.text.matches("-?[0-9]{1,9}")) {
            int number = Integer.parseInt(value.text);
            return Ex.constant("" + (to.is(Ty.Kind.BYTE) ? (byte) number : (short) number), to);
        }
        boolean fits = to.is(Ty.Kind.SHORT) && value.type.is(Ty.Kind.BYTE);
        Ex bits = Ex.constant(to.is(Ty.Kind.BYTE) ? "24" : "16", Ty.INT);
        return fits ? value.as(to) : Ex.binary(Ex.binary(value, "<<", Ex.SHIFT, bits, Ty.INT), ">>", Ex.SHIFT, bits,
            to);
    }

    // ---- boxes

    Ex primitive(Ex value, Tree at) {
        if (value.type.isPrimitive()) {
            return value;
        }
        if (isBox(value.type)) {
            String name = value.type.copy.element.getSimpleName().toString();
            Ty type = name.equals("Integer") ? Ty.INT : name.equals("Character") ? Ty.CHAR : Ty.BOOLEAN;
            return Ex.active(value.at(Ex.POST) + ".value", Ex.POST, type);
        }
        if (!value.isNull()) {
            body.obstacle(at, "unboxing", "a value of the type " + value.type
                + " stands where a number or a boolean is asked");
        }
        return Ex.constant("0", Ty.INT);
    }

    private Ex box(Ex value) {
        Copy box = library(BOXES.get(value.type.kind));
        return made(box, "valueOf", value);
    }

    /** A string as an object, where one is asked. */
    private Ex wrapped(Ex value) {
        return made(library("StringObject"), "of", value);
    }

    Ex unwrapped(Ex value) {
        return made(library("StringObject"), "text", value).as(Ty.STRING);
    }

    private Ex made(Copy copy, String name, Ex value) {
        String method = body.program.needNamed(copy, name);
        return Ex.active(copy.staticToken() + "." + method + "(" + value.text + ")", Ex.POST, copy.ty);
    }

    Ex ofCharacters(Ex value) {
        Copy strings = body.world.staticCopy(body.world.sources.elements.getTypeElement("java.lang.String"));
        return Ex.active(strings.staticToken() + "." + body.program.needNamed(strings, "ofCharacters") + "("
            + value.text + ")", Ex.POST, Ty.STRING);
    }

    // ---- casts

    Ex cast(Ex value, Ty to, Tree at) {
        if (to.isPrimitive() && value.type.isObject() && !isBox(value.type)) {
            return primitive(cast(value, library(BOXES.get(to.kind)).ty, at), at);
        }
        if (to.isPrimitive()) {
            return narrow(primitive(value, at), to);
        }
        if (value.type.isPrimitive() || value.isNull() || value.type.same(to) || to.is(Ty.Kind.OBJECT)
            || value.type.is(Ty.Kind.STRING)) {
            return convert(value, to, at);
        }
        if (to.is(Ty.Kind.STRING)) {
            return unwrapped(value);
        }
        if (value.type.is(Ty.Kind.ARRAY) && to.is(Ty.Kind.CLASS) && body.owner.isLibrary) {
            // Elements that are arrays are compared by a Comparator: this is never reached.
            String name = body.fresh(to);
            body.emit(new St.Let(to.text(), name, "null"));
            return Ex.local(name, to);
        }
        if (to.is(Ty.Kind.ARRAY) || value.type.is(Ty.Kind.ARRAY)) {
            return convert(value, to, at);
        }
        if (value.type.is(Ty.Kind.CLASS) && (value.type.copy.isBelow(to.copy) || isOfAnother(value.type.copy, to.copy))) {
            return value;
        }
        Ex wide = isRelated(value.type, to) ? value : value.prefix("(Object) ", Ty.OBJECT);
        to.copy.used = true;
        return Ex.active("(" + to.text() + ") " + guarded(wide), Ex.PREFIX, to);
    }

    /** Whether a class has an interface for other types than a cast says, as one whose superclass is Comparable. */
    private static boolean isOfAnother(Copy from, Copy to) {
        return to.isInterface() && from.as(to.element) != null;
    }

    private static boolean isRelated(Ty from, Ty to) {
        return from.is(Ty.Kind.OBJECT) || from.copy.isBelow(to.copy) || to.copy.isBelow(from.copy);
    }

    /** An operand of a cast to a class: a cast before it stands in brackets. */
    private static String guarded(Ex value) {
        return value.level >= Ex.POST ? value.text : "(" + value.text + ")";
    }

    Ex instanceOf(Ex value, Ty type, Tree at) {
        if (type.is(Ty.Kind.STRING) && value.type.is(Ty.Kind.STRING) || type.is(Ty.Kind.OBJECT)) {
            return Ex.binary(value, "!=", Ex.EQUAL, Ex.constant("null", Ty.NULL), Ty.BOOLEAN);
        }
        if (type.is(Ty.Kind.STRING)) {
            type = library("StringObject").ty;
        }
        if (value.type.is(Ty.Kind.STRING)) {
            value = wrapped(value);
        }
        if (!type.is(Ty.Kind.CLASS) || !value.type.isObject()) {
            return body.obstacleEx(at, "instanceof", "of arrays it is not brought in").as(Ty.BOOLEAN);
        }
        Ex wide = isRelated(value.type, type) ? value : value.prefix("(Object) ", Ty.OBJECT);
        type.copy.used = true;
        return new Ex(wide.at(Ex.SHIFT) + " instanceof " + type.text(), Ex.COMPARE, Ty.BOOLEAN, value.pure,
            value.reads);
    }

    // ---- texts

    /** A value as something that stands behind a + with a string. */
    Ex text(Ex value, Tree at) {
        if (value.type.isPrimitive() || value.type.is(Ty.Kind.STRING)) {
            return value;
        }
        if (value.isNull()) {
            return Ex.constant("\"null\"", Ty.STRING);
        }
        if (value.type.is(Ty.Kind.ARRAY)) {
            return body.obstacleEx(at, "text of an array",
                "Java shows an address; write Arrays.toString(..)").as(Ty.STRING);
        }
        if (value.text.equals("this")) {
            return body.program.objects.call(body, "toString", value, List.of());
        }
        Ex kept = body.settle(value);
        String name = body.fresh(Ty.STRING);
        body.emit(new St.Let("String", name, "\"null\""));
        Ex there = Ex.binary(kept, "!=", Ex.EQUAL, Ex.constant("null", Ty.NULL), Ty.BOOLEAN);
        body.emit(new St.If(there, body.within(() -> body.setLocal(name,
            body.program.objects.call(body, "toString", kept, List.of()))), new ArrayList<>()));
        return Ex.local(name, Ty.STRING);
    }

    /** A value as a String. */
    Ex string(Ex value, Tree at) {
        Ex text = text(value, at);
        return text.type.is(Ty.Kind.STRING) ? text : Ex.binary(Ex.constant("\"\"", Ty.STRING), "+", Ex.SUM, text,
            Ty.STRING);
    }
}
