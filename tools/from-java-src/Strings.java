import com.sun.source.tree.Tree;
import java.util.ArrayList;
import java.util.List;
import javax.lang.model.element.Element;
import javax.lang.model.element.ElementKind;
import javax.lang.model.element.ExecutableElement;
import javax.lang.model.element.Modifier;
import javax.lang.model.element.TypeElement;

/** Calls of methods of strings: those of the language, and those of the library,
    which take the string as their first argument. */
final class Strings {
    private final Body body;

    Strings(Body body) {
        this.body = body;
    }

    Ex call(Ex receiver, ExecutableElement method, List<Ex> values, Tree tree) {
        String name = method.getSimpleName().toString();
        if (name.equals("length") && values.isEmpty() || name.equals("charAt")) {
            if (name.equals("charAt") && body.world.faults.isChecked(tree)) {
                receiver = body.spill(receiver);
                values = List.of(body.spill(values.get(0)));
                body.exceptions.checkPlace(values.get(0), Ex.active(receiver.at(Ex.POST) + ".length()", Ex.POST, Ty.INT),
                    false);
            }
            return Ex.active(receiver.at(Ex.POST) + "." + name + Calls.joined(values), Ex.POST, name.equals("length")
                ? Ty.INT : Ty.CHAR);
        }
        if (name.equals("toString") && values.isEmpty()) {
            return receiver;
        }
        if (name.equals("equals")) {
            return equal(receiver, values.get(0), tree);
        }
        String plain = Patterns.plain(name, values);
        if (plain != null) {
            name = plain;
            values = Patterns.values(plain, values);
            method = null;
        } else if (name.equals("split") && !body.owner.isLibrary && !Patterns.isKnown(values.get(0))) {
            name = "splitBy";
            method = null;
        }
        return found(receiver, name, method, values, tree);
    }

    /** A call of the library's method: the one that is given, or the first of its name for as many strings. */
    private Ex found(Ex receiver, String name, ExecutableElement method, List<Ex> values, Tree tree) {
        TypeElement string = body.world.sources.elements.getTypeElement("java.lang.String");
        Copy strings = body.world.staticCopy(string);
        for (Element member : string.getEnclosedElements()) {
            if (member.getKind() == ElementKind.METHOD && member.getSimpleName().contentEquals(name)
                && isCalled((ExecutableElement) member, method, values)) {
                ExecutableElement found = (ExecutableElement) member;
                Program.Slot slot = body.program.slot(strings, found, List.of());
                body.program.need(strings, found, List.of());
                List<Ex> all = new ArrayList<>();
                if (!found.getModifiers().contains(Modifier.STATIC)) {
                    all.add(receiver);
                }
                all.addAll(values);
                return Ex.active(strings.staticToken() + "." + slot.name() + Calls.joined(all), Ex.POST, slot.result());
            }
        }
        return body.obstacleEx(tree, "library", "String." + name + " is not in the library");
    }

    private boolean isCalled(ExecutableElement member, ExecutableElement method, List<Ex> values) {
        return method == null ? takes(member, values)
            : member.equals(method) || body.world.methodNames.same(member, method);
    }

    private boolean takes(ExecutableElement member, List<Ex> values) {
        boolean fits = member.getParameters().size() == values.size();
        for (int k = 0; fits && k < values.size(); k++) {
            fits = body.world.ty(member.getParameters().get(k).asType(), java.util.Map.of()).same(values.get(k).type);
        }
        return fits;
    }

    private Ex equal(Ex receiver, Ex value, Tree tree) {
        if (value.type.is(Ty.Kind.STRING) || value.isNull()) {
            return Ex.active(receiver.at(Ex.POST) + ".equals(" + value.text + ")", Ex.POST, Ty.BOOLEAN);
        }
        Copy box = body.conversions.library("StringObject");
        String method = body.program.needNamed(box, "same");
        return Ex.active(box.staticToken() + "." + method + "(" + receiver.text + ", " + value.text + ")", Ex.POST,
            Ty.BOOLEAN);
    }
}
