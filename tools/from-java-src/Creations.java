import com.sun.source.tree.ExpressionTree;
import com.sun.source.tree.MemberSelectTree;
import com.sun.source.tree.NewArrayTree;
import com.sun.source.tree.NewClassTree;
import com.sun.source.tree.Tree;
import java.util.ArrayList;
import java.util.LinkedHashMap;
import java.util.List;
import java.util.Map;
import java.util.function.Supplier;
import javax.lang.model.element.Element;
import javax.lang.model.element.ExecutableElement;
import javax.lang.model.element.TypeElement;
import javax.lang.model.element.TypeParameterElement;
import javax.lang.model.type.DeclaredType;

/** Creations of objects and arrays, each at its place: first the object,
    then a call of the method that its constructor became. */
final class Creations {
    private final Body body;

    Creations(Body body) {
        this.body = body;
    }

    /** A creation; where `name` is given, the object is declared as a local of that name. */
    Ex creation(NewClassTree tree, String name) {
        if (tree.getClassBody() == null && body.tyOf(tree).is(Ty.Kind.STRING)) {
            return newString(tree);
        }
        Copy copy = copyOf(tree);
        if (copy == null || !body.program.known(copy, tree, body)) {
            return Ex.constant("null", Ty.NULL);
        }
        ExecutableElement constructor = (ExecutableElement) body.elementOf(tree);
        Place saved = body.place;
        body.place = body.placeOf(tree);
        body.program.create(copy, body);
        List<Supplier<Ex>> parts = new ArrayList<>();
        boolean around = tree.getEnclosingExpression() != null && tree.getClassBody() == null;
        if (around) {
            parts.add(() -> body.ex(tree.getEnclosingExpression()));
        }
        List<Ty> wilds = tree.getClassBody() != null || isOfClass(copy, tree) ? List.of()
            : Wilds.with(body, constructor, copy.env, List.of(), tree.getArguments());
        Map<Element, Ty> env = new LinkedHashMap<>(copy.env);
        Wilds.put(env, constructor, wilds);
        if (isOfClass(copy, tree)) {
            parts.add(() -> Ex.constant("null", Ty.NULL));
        } else {
            parts.addAll(body.calls.arguments(constructor, env, tree.getArguments(), tree));
        }
        List<Ex> values = body.operands(parts);
        Ex made = made(copy, constructor, wilds, around ? values.get(0) : null,
            around ? values.subList(1, values.size()) : values, name);
        body.place = saved;
        return made;
    }

    /** `new EnumMap<>(Coin.class)`: what the class says the type argument says too. */
    private static boolean isOfClass(Copy copy, NewClassTree tree) {
        return copy.element != null && copy.element.toString().equals("java.util.EnumMap")
            && tree.getArguments().get(0) instanceof MemberSelectTree select
            && select.getIdentifier().contentEquals("class");
    }

    /** `new String(..)` of nothing, of a string or of characters. */
    private Ex newString(NewClassTree tree) {
        if (tree.getArguments().isEmpty()) {
            return Literals.string("");
        }
        Ex value = body.ex(tree.getArguments().get(0));
        boolean one = tree.getArguments().size() == 1;
        if (one && value.type.is(Ty.Kind.ARRAY) && value.type.of.is(Ty.Kind.CHAR)) {
            return body.conversions.ofCharacters(value);
        }
        return one && value.type.is(Ty.Kind.STRING) ? value
            : body.obstacleEx(tree, "new String", "write the string itself, or String.valueOf of the characters");
    }

    /** The type of a new object; a container may have a class of its own. */
    Ty typeOf(NewClassTree tree) {
        Ty own = body.world.apart.of(tree);
        return own == null ? body.tyOf(tree)
            : body.world.copyOf((DeclaredType) body.world.sources.typeOf(tree), body.env, own).ty;
    }

    private Copy copyOf(NewClassTree tree) {
        if (tree.getClassBody() == null) {
            Ty type = typeOf(tree);
            return type.is(Ty.Kind.CLASS) ? type.copy : plainObject(tree, type);
        }
        TypeElement element = body.world.sources.localOf.get(tree.getClassBody());
        Map<Element, Ty> env = new LinkedHashMap<>();
        for (TypeParameterElement one : body.world.variablesOf(element)) {
            env.put(one, body.env.getOrDefault(one, Ty.OBJECT));
        }
        body.env.forEach((one, type) -> {
            if (one instanceof javax.lang.model.element.VariableElement) {
                env.put(one, type);
            }
        });
        return body.world.copy(element, env);
    }

    private Copy plainObject(NewClassTree tree, Ty type) {
        if (type.is(Ty.Kind.OBJECT)) {
            return body.conversions.library("PlainObject");
        }
        body.obstacle(tree, "new String", "write the string itself, or String.valueOf of the characters");
        return null;
    }

    /** An object of a class, whose constructor gets values that were evaluated. */
    Ex made(Copy copy, ExecutableElement constructor, Ex around, List<Ex> values, String name) {
        return made(copy, constructor, List.of(), around, values, name);
    }

    private Ex made(Copy copy, ExecutableElement constructor, List<Ty> wilds, Ex around, List<Ex> values, String name) {
        body.program.create(copy, body);
        String init = body.program.inits.name(copy, constructor, wilds);
        boolean holds = false;
        for (Copy at = copy; at != null; at = at.superCopy) {
            holds |= at.holdsOuter || !at.captured.isEmpty();
        }
        if (init == null && !holds) {
            return Ex.active("new " + copy.token() + "()", Ex.POST, copy.ty);
        }
        Ex object = Ex.local(name != null ? name : body.fresh(copy.ty), copy.ty);
        body.emit(new St.Let(copy.token(), object.text, "new " + copy.token() + "()"));
        surround(copy, object, around);
        if (init != null) {
            body.emit(new St.Do(object.text + "." + init + Calls.joined(values)));
            body.exceptions.after(constructor);
        }
        return object;
    }

    /** Gives a new object what it takes from around it. */
    void surround(Copy copy, Ex object, Ex around) {
        for (Copy at = copy; at != null; at = at.superCopy) {
            if (at.holdsOuter) {
                Ex outer = around != null ? around : body.around(at.outer.element);
                if (outer == null) {
                    body.obstacle(null, "outer object", "the object around " + at.name + " is not at hand here");
                    continue;
                }
                body.set(object.text + "." + Members.outer(at), outer);
            }
            for (Element one : at.captured.keySet()) {
                body.set(object.text + "." + Captures.name(one), body.expressions.local(one, null));
            }
        }
    }

    // ---- arrays

    Ex array(NewArrayTree tree, Ty wanted, String name) {
        Ty type = typeOf(tree, wanted);
        if (tree.getInitializers() != null) {
            return filled(type, tree.getInitializers(), name);
        }
        List<Supplier<Ex>> parts = new ArrayList<>();
        tree.getDimensions().forEach(size -> parts.add(() -> body.exTo(size, Ty.INT)));
        List<Ex> sizes = new ArrayList<>(body.operands(parts));
        if (sizes.size() == 1) {
            if (body.world.faults.isChecked(tree)) {
                sizes.set(0, body.spill(sizes.get(0)));
                body.exceptions.checkSize(sizes.get(0));
            }
            return sized(type, sizes.get(0));
        }
        sizes.replaceAll(body::settle);
        return nested(type, sizes, name);
    }

    private Ty typeOf(NewArrayTree tree, Ty wanted) {
        Ty own = body.tyOf(tree);
        if (wanted == null || !wanted.is(Ty.Kind.ARRAY) || !own.is(Ty.Kind.ARRAY)) {
            return wanted != null && wanted.is(Ty.Kind.ARRAY) ? wanted : own;
        }
        Ty inner = own, asked = wanted;
        while (inner.is(Ty.Kind.ARRAY) && asked.is(Ty.Kind.ARRAY)) {
            inner = inner.of;
            asked = asked.of;
        }
        boolean open = inner.is(Ty.Kind.OBJECT) || inner.is(Ty.Kind.CLASS) && !inner.copy.env.isEmpty();
        return open && asked.isReference() ? wanted : own;
    }

    Ex sized(Ty type, Ex size) {
        Ty inner = type.of;
        StringBuilder brackets = new StringBuilder();
        while (inner.is(Ty.Kind.ARRAY)) {
            inner = inner.of;
            brackets.append("[]");
        }
        body.program.arrayOf(inner);
        return Ex.active("new " + inner.text() + "[" + size.text + "]" + brackets, Ex.PREFIX, type);
    }

    private Ex nested(Ty type, List<Ex> sizes, String name) {
        Ex array = Ex.local(name != null ? name : body.fresh(type), type);
        body.emit(new St.Let(type.text(), array.text, sized(type, sizes.get(0)).text));
        String index = body.fresh("index");
        St.Loop loop = counting(index, sizes.get(0));
        loop.body = body.within(() -> {
            boolean last = sizes.size() == 2;
            Ex inner = last ? sized(type.of, sizes.get(1)) : nested(type.of, sizes.subList(1, sizes.size()), null);
            body.set(array.text + "[" + index + "]", inner);
        });
        body.emit(loop);
        return array;
    }

    /** `for (int index = 0; index < end; index++)` without its body. */
    St.Loop counting(String index, Ex end) {
        St.Loop loop = new St.Loop();
        loop.first = new St.Let("int", index, "0");
        loop.test = Ex.binary(Ex.local(index, Ty.INT), "<", Ex.COMPARE, end, Ty.BOOLEAN);
        loop.next = new St.Set_(index, index + " + 1", index);
        return loop;
    }

    /** An array of given elements. */
    Ex filled(Ty type, List<? extends ExpressionTree> elements, String name) {
        if (elements.isEmpty()) {
            return sized(type, Ex.constant("0", Ty.INT));
        }
        Ex array = Ex.local(name != null ? name : body.fresh(type), type);
        body.emit(new St.Let(type.text(), array.text, sized(type, Ex.constant("" + elements.size(), Ty.INT)).text));
        for (int k = 0; k < elements.size(); k++) {
            ExpressionTree element = elements.get(k);
            Ex value = element instanceof NewArrayTree inner ? array(inner, type.of, null)
                : body.exTo(element, type.of);
            body.set(array.text + "[" + k + "]", value);
        }
        return array;
    }

    Ex cloned(Ex array) {
        Ex from = body.settle(array);
        Ex to = Ex.local(body.fresh(array.type), array.type);
        Ex length = Ex.active(from.at(Ex.POST) + ".length", Ex.POST, Ty.INT);
        body.emit(new St.Let(array.type.text(), to.text, sized(array.type, length).text));
        String index = body.fresh("index");
        St.Loop loop = counting(index, length);
        loop.body = body.within(() -> body.set(to.text + "[" + index + "]",
            Ex.active(from.text + "[" + index + "]", Ex.POST, array.type.of)));
        body.emit(loop);
        return to;
    }
}
