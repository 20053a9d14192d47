import com.sun.source.tree.NewClassTree;
import com.sun.source.tree.VariableTree;
import java.util.ArrayList;
import java.util.List;
import javax.lang.model.element.Element;
import javax.lang.model.element.ElementKind;
import javax.lang.model.element.ExecutableElement;
import javax.lang.model.element.VariableElement;

/** Constants of enums, and the methods that the compiler makes for them. */
final class Enums {
    private Enums() {
    }

    static List<VariableElement> constants(Copy copy) {
        List<VariableElement> all = new ArrayList<>();
        for (Element member : copy.element.getEnclosedElements()) {
            if (member.getKind() == ElementKind.ENUM_CONSTANT) {
                all.add((VariableElement) member);
            }
        }
        return all;
    }

    /** Makes a constant: its object, its name and place, and then what its constructor does. */
    static void constant(Body body, String target, VariableTree field, VariableElement element, int ordinal) {
        NewClassTree tree = (NewClassTree) field.getInitializer();
        Copy copy = tree.getClassBody() == null ? body.ty(element.asType()).copy
            : body.world.copy(body.world.sources.localOf.get(tree.getClassBody()), new java.util.LinkedHashMap<>());
        body.program.create(copy, body);
        ExecutableElement constructor = (ExecutableElement) body.elementOf(tree);
        List<Ex> values = body.operands(body.calls.arguments(constructor, copy.env, tree.getArguments(), tree));
        Ex object = Ex.local(body.fresh(copy.ty), copy.ty);
        body.emit(new St.Let(copy.token(), object.text, "new " + copy.token() + "()"));
        body.set(object.text + ".name", Literals.string(element.getSimpleName().toString()));
        body.set(object.text + ".ordinal", Literals.of(ordinal));
        body.creations.surround(copy, object, null);
        String init = body.program.inits.name(copy, constructor, List.of());
        if (init != null) {
            body.emit(new St.Do(object.text + "." + init + Calls.joined(values)));
        }
        body.set(target, object);
    }

    /** `values()` and `valueOf(String)`. */
    static boolean write(Body body, Copy copy, ExecutableElement method) {
        String name = method.getSimpleName().toString();
        if (copy.element.getKind() != ElementKind.ENUM || !name.equals("values") && !name.equals("valueOf")) {
            return false;
        }
        List<VariableElement> all = constants(copy);
        if (name.equals("values")) {
            Ty type = Ty.array(copy.ty);
            Ex array = Ex.local("all", type);
            body.emit(new St.Let(type.text(), "all", body.creations.sized(type, Literals.of(all.size())).text));
            for (int k = 0; k < all.size(); k++) {
                body.set("all[" + k + "]", body.expressions.field(null, all.get(k), null));
            }
            body.emit(new St.Return(array.text));
            return true;
        }
        for (VariableElement one : all) {
            Ex test = Ex.active("name.equals(\"" + one.getSimpleName() + "\")", Ex.POST, Ty.BOOLEAN);
            body.emit(new St.If(test, body.within(() -> body.emit(new St.Return(body.expressions.field(null, one,
                null).text))), new ArrayList<>()));
        }
        body.exceptions.raiseNew("IllegalArgumentException",
            Ex.binary(Literals.string("No enum constant " + copy.element.getQualifiedName() + "."), "+", Ex.SUM,
            Ex.local("name", Ty.STRING), Ty.STRING));
        return true;
    }
}
