import com.sun.source.tree.AssignmentTree;
import com.sun.source.tree.MethodTree;
import com.sun.source.util.TreeScanner;
import java.util.ArrayList;
import java.util.List;
import javax.lang.model.element.Element;
import javax.lang.model.element.ElementKind;
import javax.lang.model.element.ExecutableElement;
import javax.lang.model.element.Modifier;
import javax.lang.model.element.VariableElement;

/** What the compiler makes for records: the fields' values, accessors, equals, hashCode and toString. */
final class Records {
    private Records() {
    }

    static boolean isRecord(Copy copy) {
        return copy.element != null && copy.element.getKind() == ElementKind.RECORD;
    }

    static List<VariableElement> parts(Copy copy) {
        List<VariableElement> all = new ArrayList<>();
        for (Element member : copy.element.getEnclosedElements()) {
            if (member.getKind() == ElementKind.FIELD && !member.getModifiers().contains(Modifier.STATIC)) {
                all.add((VariableElement) member);
            }
        }
        return all;
    }

    /** Whether the compiler puts the values of a record's fields behind what its constructor says. */
    static boolean assigns(Program program, Copy copy, ExecutableElement constructor) {
        if (!isRecord(copy) || constructor.getParameters().size() != parts(copy).size() || parts(copy).isEmpty()) {
            return false;
        }
        for (int k = 0; k < constructor.getParameters().size(); k++) {
            if (!constructor.getParameters().get(k).getSimpleName().equals(parts(copy).get(k).getSimpleName())) {
                return false;
            }
        }
        boolean[] says = {false};
        if (program.world.sources.treeOf.get(constructor) instanceof MethodTree tree) {
            boolean delegates = tree.getBody().toString().contains("this(");
            new TreeScanner<Void, Void>() {
                @Override
                public Void visitAssignment(AssignmentTree one, Void nothing) {
                    says[0] |= program.world.sources.elementOf(one.getVariable()) instanceof VariableElement field
                        && field.getKind() == ElementKind.FIELD && field.getEnclosingElement().equals(copy.element);
                    return super.visitAssignment(one, nothing);
                }
            }.scan(tree, null);
            says[0] |= delegates;
        }
        return !says[0];
    }

    static void assign(Program program, Copy copy, ExecutableElement constructor, Body body) {
        if (assigns(program, copy, constructor)) {
            for (int k = 0; k < parts(copy).size(); k++) {
                VariableElement parameter = constructor.getParameters().get(k);
                Ty type = body.ty(parameter.asType());
                body.set("this." + Members.field(parts(copy).get(k)), Ex.local(body.nameOf(parameter), type));
            }
        }
    }

    /** A method that the compiler makes; false where it makes none of that name. */
    static boolean write(Body body, Copy copy, ExecutableElement method) {
        if (!isRecord(copy)) {
            return false;
        }
        String name = method.getSimpleName().toString();
        if (method.getParameters().isEmpty()) {
            for (VariableElement part : parts(copy)) {
                if (part.getSimpleName().contentEquals(name)) {
                    body.emit(new St.Return("this." + Members.field(part)));
                    return true;
                }
            }
        }
        switch (name) {
            case "toString": text(body, copy); return true;
            case "hashCode": hash(body, copy); return true;
            case "equals": equal(body, copy, body.nameOf(method.getParameters().get(0))); return true;
            default: return false;
        }
    }

    private static Ex part(Body body, Copy copy, VariableElement field, String of) {
        return Ex.active(of + "." + Members.field(field), Ex.POST, body.world.ty(field.asType(), copy.env));
    }

    private static void text(Body body, Copy copy) {
        Ex all = Literals.string(copy.element.getSimpleName() + "[");
        String before = "";
        for (VariableElement field : parts(copy)) {
            Ex value = body.conversions.text(part(body, copy, field, "this"), null);
            all = Ex.binary(all, "+", Ex.SUM, Literals.string(before + field.getSimpleName() + "="), Ty.STRING);
            all = Ex.binary(all, "+", Ex.SUM, value, Ty.STRING);
            before = ", ";
        }
        body.emit(new St.Return(Ex.binary(all, "+", Ex.SUM, Literals.string("]"), Ty.STRING).text));
    }

    private static void hash(Body body, Copy copy) {
        body.emit(new St.Let("int", "all", "0"));
        for (VariableElement field : parts(copy)) {
            Ex value = part(body, copy, field, "this");
            Ex hash = Hashes.of(body, value);
            body.emit(new St.Set_("all", "31 * all + " + hash.at(Ex.PRODUCT), "all"));
        }
        body.emit(new St.Return("all"));
    }

    private static void equal(Body body, Copy copy, String name) {
        Ex other = Ex.local(name, Ty.OBJECT);
        Ex is = body.conversions.instanceOf(other, copy.ty, null);
        body.emit(new St.If(is.not(), body.within(() -> body.emit(new St.Return("false"))), new ArrayList<>()));
        body.emit(new St.Let(copy.token(), "that", body.conversions.cast(other, copy.ty, null).text));
        for (VariableElement field : parts(copy)) {
            Ex one = part(body, copy, field, "this"), two = part(body, copy, field, "that");
            Ex same = Hashes.same(body, one, two);
            body.emit(new St.If(same.not(), body.within(() -> body.emit(new St.Return("false"))), new ArrayList<>()));
        }
        body.emit(new St.Return("true"));
    }
}
