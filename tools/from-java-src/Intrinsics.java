import com.sun.source.tree.ExpressionTree;
import com.sun.source.tree.MemberSelectTree;
import com.sun.source.tree.MethodInvocationTree;
import java.util.ArrayList;
import java.util.LinkedHashMap;
import java.util.List;
import java.util.Map;
import java.util.function.Supplier;
import javax.lang.model.element.ExecutableElement;
import javax.lang.model.element.TypeElement;
import javax.lang.model.util.ElementFilter;

/** Calls that are written out where they stand, since their values may be of any type. */
final class Intrinsics {
    private final Body body;

    Intrinsics(Body body) {
        this.body = body;
    }

    /** The value of such a call, or null where it is none. */
    Ex call(MethodInvocationTree tree, ExecutableElement method) {
        String holder = method.getEnclosingElement().toString(), name = method.getSimpleName().toString();
        if (holder.equals("java.util.Objects")) {
            return objects(tree, name);
        }
        if (holder.equals("java.util.EnumSet") && (name.equals("noneOf") || name.equals("allOf"))) {
            return enums(tree, method, name);
        }
        if (holder.equals("java.lang.System") && name.equals("lineSeparator")) {
            return Literals.string("\n");
        }
        return holder.equals("java.lang.System") && name.equals("arraycopy") ? copied(tree) : null;
    }

    /** A set of an enum whose class is given: its constants stand in the place of the class. */
    private Ex enums(MethodInvocationTree tree, ExecutableElement method, String name) {
        boolean named = tree.getArguments().get(0) instanceof MemberSelectTree select
            && select.getIdentifier().contentEquals("class");
        if (!named) {
            return body.obstacleEx(tree, "class literal", "reflection is not brought in");
        }
        Ty type = body.tyOf(((MemberSelectTree) tree.getArguments().get(0)).getExpression());
        TypeElement sets = (TypeElement) method.getEnclosingElement();
        if (name.equals("noneOf")) {
            Copy made = body.world.copy(sets, new LinkedHashMap<>(Map.of(sets.getTypeParameters().get(0), type)));
            ExecutableElement constructor = ElementFilter.constructorsIn(sets.getEnclosedElements()).get(0);
            return body.creations.made(made, constructor, null, List.of(), null);
        }
        ExecutableElement all = ElementFilter.methodsIn(sets.getEnclosedElements()).stream()
            .filter(one -> one.getSimpleName().contentEquals("all")).findFirst().orElseThrow();
        ExecutableElement values = ElementFilter.methodsIn(type.copy.element.getEnclosedElements()).stream()
            .filter(one -> one.toString().equals("values()")).findFirst().orElseThrow();
        Ex constants = body.calls.invokeStatic(values, List.of(), List.of(), false);
        return body.calls.invokeStatic(all, List.of(type), List.of(constants), false);
    }

    private List<Ex> values(List<? extends ExpressionTree> given) {
        List<Supplier<Ex>> parts = new ArrayList<>();
        given.forEach(one -> parts.add(() -> body.ex(one)));
        return body.operands(parts);
    }

    private Ex objects(MethodInvocationTree tree, String name) {
        switch (name) {
            case "equals": {
                List<Ex> both = values(tree.getArguments());
                return same(both.get(0), both.get(1), tree);
            }
            case "hashCode":
                return Hashes.of(body, values(tree.getArguments()).get(0));
            case "hash": {
                Ex all = Literals.of(1);
                for (Ex one : values(tree.getArguments())) {
                    Ex scaled = Ex.binary(Literals.of(31), "*", Ex.PRODUCT, all, Ty.INT);
                    all = Ex.binary(scaled, "+", Ex.SUM, Hashes.of(body, one), Ty.INT);
                }
                return all;
            }
            case "toString":
                return tree.getArguments().size() == 1 ? body.conversions.string(values(tree.getArguments()).get(0),
                    tree) : or(tree);
            default:
                return null;
        }
    }

    /** `Objects.toString(value, none)`. */
    private Ex or(MethodInvocationTree tree) {
        List<Ex> both = values(tree.getArguments());
        Ex value = body.settle(both.get(0)), none = body.settle(both.get(1));
        String name = body.fresh(Ty.STRING);
        body.emit(new St.Let("String", name, none.text));
        Ex there = Ex.binary(value, "!=", Ex.EQUAL, Ex.constant("null", Ty.NULL), Ty.BOOLEAN);
        body.emit(new St.If(there, body.within(() -> body.setLocal(name, body.conversions.string(value, tree))),
            new ArrayList<>()));
        return Ex.local(name, Ty.STRING);
    }

    private Ex same(Ex one, Ex two, MethodInvocationTree tree) {
        if (one.type.isPrimitive() && two.type.isPrimitive()) {
            return Ex.binary(one, "==", Ex.EQUAL, two, Ty.BOOLEAN);
        }
        Ex left = one.type.isPrimitive() ? body.conversions.convert(one, two.type, tree) : one;
        Ex right = two.type.isPrimitive() ? body.conversions.convert(two, one.type, tree) : two;
        return Hashes.same(body, left, right);
    }

    /** `System.arraycopy` by way of an array between, so that the parts may overlap. */
    private Ex copied(MethodInvocationTree tree) {
        List<Ex> given = new ArrayList<>();
        values(tree.getArguments()).forEach(one -> given.add(body.settle(one)));
        Ex count = given.get(4);
        Ex kept = body.spill(body.creations.sized(given.get(0).type, count));
        move(given.get(0), given.get(1), kept, Literals.of(0), count);
        move(kept, Literals.of(0), given.get(2), given.get(3), count);
        return new Ex("", Ex.POST, Ty.VOID, true, java.util.Set.of());
    }

    private void move(Ex from, Ex at, Ex to, Ex place, Ex count) {
        String index = body.fresh("index");
        St.Loop loop = body.creations.counting(index, count);
        Ex k = Ex.local(index, Ty.INT);
        loop.body = body.within(() -> body.set(Expressions.elementOf(to, sum(place, k)).text,
            Expressions.elementOf(from, sum(at, k))));
        body.emit(loop);
    }

    private static Ex sum(Ex one, Ex other) {
        return one.text.equals("0") ? other : Ex.binary(one, "+", Ex.SUM, other, Ty.INT);
    }
}
