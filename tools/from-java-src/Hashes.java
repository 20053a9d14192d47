import java.util.ArrayList;
import java.util.List;

/** Hash numbers and equality of values of any type, null among them. */
final class Hashes {
    private Hashes() {
    }

    static Ex of(Body body, Ex value) {
        if (value.type.is(Ty.Kind.BOOLEAN)) {
            String name = body.fresh("number");
            body.emit(new St.Let("int", name, "1237"));
            body.emit(new St.If(value, body.within(() -> body.setLocal(name, Literals.of(1231))), new ArrayList<>()));
            return Ex.local(name, Ty.INT);
        }
        if (value.type.isPrimitive()) {
            return value;
        }
        if (value.type.is(Ty.Kind.ARRAY)) {
            return Literals.of(0);
        }
        Ex kept = body.settle(value);
        String name = body.fresh("number");
        body.emit(new St.Let("int", name, "0"));
        Ex there = Ex.binary(kept, "!=", Ex.EQUAL, Ex.constant("null", Ty.NULL), Ty.BOOLEAN);
        body.emit(new St.If(there, body.within(() -> body.setLocal(name,
            body.program.objects.call(body, "hashCode", kept, List.of()))), new ArrayList<>()));
        return Ex.local(name, Ty.INT);
    }

    static Ex same(Body body, Ex one, Ex two) {
        if (one.type.isPrimitive()) {
            return Ex.binary(one, "==", Ex.EQUAL, two, Ty.BOOLEAN);
        }
        if (one.type.is(Ty.Kind.ARRAY) || two.type.is(Ty.Kind.ARRAY)) {
            return Ex.binary(one, "==", Ex.EQUAL, two, Ty.BOOLEAN);
        }
        Ex left = body.settle(one), right = body.settle(two);
        String name = body.fresh("test");
        Ex none = Ex.constant("null", Ty.NULL);
        body.emit(new St.Let("boolean", name, Ex.binary(right, "==", Ex.EQUAL, none, Ty.BOOLEAN).text));
        Ex there = Ex.binary(left, "!=", Ex.EQUAL, none, Ty.BOOLEAN);
        body.emit(new St.If(there, body.within(() -> body.setLocal(name,
            body.program.objects.call(body, "equals", left, List.of(right)))), new ArrayList<>()));
        return Ex.local(name, Ty.BOOLEAN);
    }
}
