import java.util.ArrayList;
import java.util.HashSet;
import java.util.LinkedHashMap;
import java.util.LinkedHashSet;
import java.util.List;
import java.util.Map;
import java.util.Set;
import javax.lang.model.element.Element;
import javax.lang.model.element.ElementKind;
import javax.lang.model.element.ExecutableElement;
import javax.lang.model.element.Modifier;
import javax.lang.model.element.TypeElement;
import javax.lang.model.util.ElementFilter;

/** equals, hashCode and toString, which Object does not have in the text, and the names of classes. */
final class ObjectMethods {
    private final Program program;
    private final Set<String> asked = new LinkedHashSet<>(); // of the class Any
    private final Set<String> injected = new HashSet<>();
    private final Map<Copy, Set<String>> heads = new LinkedHashMap<>();
    private final Map<String, Copy> tops = new LinkedHashMap<>(); // of what asks for a name, the class that it knows
    private final Map<String, TypeElement> kinds = new LinkedHashMap<>(); // of what asks for a generic class, that class
    private final Map<Place, Copy> opened = new LinkedHashMap<>();
    private Copy any;

    ObjectMethods(Program program) {
        this.program = program;
    }

    ExecutableElement method(String name) {
        TypeElement object = program.world.sources.elements.getTypeElement("java.lang.Object");
        return ElementFilter.methodsIn(object.getEnclosedElements()).stream()
            .filter(one -> one.getSimpleName().contentEquals(name)).findFirst().orElseThrow();
    }

    /** A call on any object or string. */
    Ex call(Body body, String name, Ex receiver, List<Ex> values) {
        if (receiver.type.is(Ty.Kind.STRING)) {
            return new Strings(body).call(receiver, method(name), values, null);
        }
        Ty result = name.equals("equals") ? Ty.BOOLEAN : name.equals("hashCode") ? Ty.INT : Ty.STRING;
        List<Ex> given = new ArrayList<>();
        values.forEach(value -> given.add(body.conversions.convert(value, Ty.OBJECT, null)));
        boolean direct = receiver.type.is(Ty.Kind.CLASS) && !receiver.type.copy.isInterface()
            && receiver.type.copy.element != null;
        if (receiver.type.is(Ty.Kind.CLASS) && receiver.type.copy.isInterface()) {
            head(receiver.type.copy, name);
            return Ex.active(receiver.at(Ex.POST) + "." + name + Calls.joined(given), Ex.POST, result);
        }
        if (!direct) {
            asked.add(name);
            given.add(0, receiver);
            return Ex.active(any().staticToken() + "." + name + Calls.joined(given), Ex.POST, result);
        }
        Copy root = receiver.type.copy.root();
        if (name.equals("toString") && !isDeclared(root) && !body.owner.isLibrary) {
            return body.obstacleEx(null, "text of an object", "the class " + root.name
                + " has no toString, and Java shows an address").as(Ty.STRING);
        }
        need(root, name);
        String front = receiver.text.equals("this") ? "" : receiver.at(Ex.POST) + ".";
        return Ex.active(front + name + Calls.joined(given), Ex.POST, result);
    }

    /** Whether the class, or one below it, has a text of its own. */
    private boolean isDeclared(Copy root) {
        if (program.world.find(root, method("toString")) != null || Records.isRecord(root)) {
            return true;
        }
        for (TypeElement one : program.world.sources.classes) {
            boolean below = program.world.sources.types.isSubtype(program.world.sources.types.erasure(one.asType()),
                program.world.sources.types.erasure(root.element.asType()));
            boolean has = ElementFilter.methodsIn(one.getEnclosedElements()).stream().anyMatch(member ->
                member.toString().equals("toString()"));
            if (below && has) {
                return true;
            }
        }
        return false;
    }

    /** Declares a method in an interface; each class below it then has it. */
    private void head(Copy face, String name) {
        if (!heads.computeIfAbsent(face, key -> new LinkedHashSet<>()).add(name)) {
            return;
        }
        program.need(face, method(name), List.of());
        Copy.Method head = new Copy.Method();
        head.name = name;
        head.was = name;
        head.isPublic = true;
        head.result = name.equals("equals") ? "boolean" : name.equals("hashCode") ? "int" : "String";
        if (name.equals("equals")) {
            head.params.add("Object other");
        }
        head.at = program.main == null || face.tree == null ? null
            : program.world.sources.placeOf(face.unit, face.tree);
        face.methods.add(head);
    }

    /** Asks for a method of a topmost class, which gets Object's where it has none. */
    private void need(Copy root, String name) {
        program.need(root, method(name), List.of());
        World.Found found = program.world.find(root, method(name));
        if (found == null && injected.add(root.number + name)) {
            program.later(() -> inject(root, name));
        } else if (found != null && !found.copy().isInterface()) {
            // It is called on this class, though there may be no object of it.
            program.need(found.copy(), found.method(), List.of());
        }
    }

    private void inject(Copy root, String name) {
        Body body = new Body(program, root, root.env, false);
        Copy.Method method = new Copy.Method();
        method.name = name;
        method.was = name;
        method.isPublic = true;
        method.at = body.placeOf(root.tree);
        body.isMain = false;
        body.place = method.at;
        method.result = name.equals("equals") ? "boolean" : name.equals("hashCode") ? "int" : "String";
        if (name.equals("equals")) {
            method.params.add("Object other");
        }
        body.result = name.equals("equals") ? Ty.BOOLEAN : name.equals("hashCode") ? Ty.INT : Ty.STRING;
        List<St> made = body.within(() -> {
            if (name.equals("equals")) {
                body.emit(new St.Return("this == other"));
            } else if (name.equals("hashCode")) {
                identity(body, root);
            } else {
                body.exceptions.raiseNew("UnsupportedOperationException",
                    Literals.string("the object has no text but its address"));
            }
        });
        method.body = Finish.finish(made, body.result, body);
        root.methods.add(method);
    }

    /** A number of its own for each object that is asked, as an address would be. */
    private void identity(Body body, Copy root) {
        root.fields.add(new Copy.Field("identity", "int", body.place, null));
        Copy numbers = body.conversions.library("Thrown");
        String next = program.needNamed(numbers, "nextIdentity");
        Ex none = Ex.binary(Ex.active("this.identity", Ex.POST, Ty.INT), "==", Ex.EQUAL, Literals.of(0), Ty.BOOLEAN);
        body.emit(new St.If(none, body.within(() -> body.set("this.identity",
            Ex.active(numbers.staticToken() + "." + next + "()", Ex.POST, Ty.INT))), new ArrayList<>()));
        body.emit(new St.Return("this.identity"));
    }

    /** `super.equals(..)` and the like where the class above is Object. */
    Ex plain(Body body, ExecutableElement method, Ex argument) {
        String name = method.getSimpleName().toString();
        if (name.equals("equals")) {
            return Ex.binary(body.thisObject(), "==", Ex.EQUAL, argument, Ty.BOOLEAN);
        }
        return body.obstacleEx(null, "super." + name, "that of Object is not brought in");
    }

    /** Whether an object is one of a generic class, whatever the types for its variables are. */
    Ex isOf(Body body, Ex value, TypeElement element) {
        String name = "is" + element.getSimpleName();
        asked.add(name);
        kinds.put(name, element);
        return Ex.active(any().staticToken() + "." + name + "(" + value.text + ")", Ex.POST, Ty.BOOLEAN);
    }

    /** A copy of a generic class as which an object is seen of which nothing is known. */
    void opened(Copy copy, Place at) {
        opened.putIfAbsent(at, copy);
    }

    /** Tells where an object may be of another copy than the one that is asked. */
    void tellOpened() {
        opened.forEach((at, copy) -> program.world.copies.stream()
            .filter(one -> one.created && one.as(copy.element) != null && !one.isBelow(copy)).findFirst()
            .ifPresent(one -> program.world.obstacles.add(at, "generics", "an object of the copy " + one
                + " may stand where one of " + copy + " is asked: write the type arguments that it has")));
    }

    Ex nameOf(Body body, Ex value, String which) {
        Copy top = value.type.is(Ty.Kind.CLASS) && value.type.copy.element != null ? value.type.copy : null;
        String name = which + (top == null ? "" : "Of" + top.name);
        asked.add(name);
        tops.put(name, top);
        return Ex.active(any().staticToken() + "." + name + "(" + value.text + ")", Ex.POST, Ty.STRING);
    }

    private static boolean isName(String asked) {
        return asked.startsWith("simpleName") || asked.startsWith("className");
    }

    // ---- the class Any

    private Copy any() {
        any = any == null ? program.world.made("Any") : any;
        return any;
    }

    /** Classes that stand at the top, of which there are objects. */
    private List<Copy> roots() {
        Set<Copy> all = new LinkedHashSet<>();
        for (Copy one : program.world.copies) {
            if (one.created && one.element != null && one.tree != null) {
                all.add(one.root());
            }
        }
        return new ArrayList<>(all);
    }

    /** Asks for what Any calls; true where something new was asked. */
    boolean settle() {
        int before = program.count();
        for (String name : List.copyOf(asked)) {
            if (!isName(name) && !kinds.containsKey(name)) {
                roots().stream().filter(one -> !name.equals("toString") || isDeclared(one)).forEach(one ->
                    need(one, name));
            }
        }
        Map.copyOf(heads).forEach((face, names) -> {
            for (Copy one : List.copyOf(program.world.copies)) {
                if (one.created && one.isBelow(face)) {
                    List.copyOf(names).forEach(name -> need(one.root(), name));
                }
            }
        });
        return program.count() != before;
    }

    void finish() {
        for (String name : asked) {
            Body body = new Body(program, program.main, Map.of(), true);
            Copy.Method method = new Copy.Method();
            method.name = name;
            method.isStatic = true;
            method.at = body.placeOf(program.main.tree);
            body.place = method.at;
            method.params.add((tops.get(name) == null ? "Object" : tops.get(name).token()) + " value");
            boolean tests = name.equals("equals") || kinds.containsKey(name);
            body.result = tests ? Ty.BOOLEAN : name.equals("hashCode") ? Ty.INT : Ty.STRING;
            method.result = body.result.text();
            if (name.equals("equals")) {
                method.params.add("Object other");
            }
            List<St> made = body.within(() -> cases(body, name));
            method.body = Finish.finish(made, body.result, body);
            any.staticMethods.add(method);
        }
    }

    private void cases(Body body, String name) {
        if (kinds.containsKey(name)) {
            program.world.copies.stream().filter(one -> one.created && one.as(kinds.get(name)) != null)
                .forEach(one -> choose(body, one, "true"));
            body.emit(new St.Return("false"));
            return;
        }
        if (isName(name)) {
            names(body, name);
        } else {
            String argument = name.equals("equals") ? "(other)" : "()";
            roots().stream().filter(one -> !name.equals("toString") || isDeclared(one)).forEach(one -> choose(body, one,
                "((" + one.token() + ") value)." + name + argument));
        }
        Ex isNull = Ex.binary(Ex.local("value", Ty.OBJECT), "==", Ex.EQUAL, Ex.constant("null", Ty.NULL), Ty.BOOLEAN);
        body.emit(new St.If(isNull, body.within(() -> {
            body.emit(new St.Let("String", "none", "null"));
            body.emit(new St.Let("int", "length", "none.length()"));
        }), new ArrayList<>()));
        if (name.equals("equals")) {
            body.emit(new St.Return("value == other"));
        }
    }

    private void names(Body body, String name) {
        List<Copy> all = new ArrayList<>();
        Copy top = tops.get(name);
        program.world.copies.stream().filter(one -> one.created && one.element != null
            && (top == null || one.isBelow(top))).forEach(all::add);
        List<Copy> sorted = new ArrayList<>();
        while (!all.isEmpty()) {
            Copy low = all.stream().filter(one -> all.stream().noneMatch(other -> other != one
                && other.isBelow(one))).findFirst().orElseThrow();
            all.remove(low);
            sorted.add(low);
        }
        for (Copy one : sorted) {
            String text = name.startsWith("simpleName") ? one.element.getSimpleName().toString()
                : program.world.sources.elements.getBinaryName(one.element).toString();
            choose(body, one, Literals.string(text).text);
        }
    }

    private void choose(Body body, Copy one, String value) {
        one.used = true;
        Ex test = Ex.active("value instanceof " + one.token(), Ex.COMPARE, Ty.BOOLEAN);
        body.emit(new St.If(test, body.within(() -> body.emit(new St.Return(value))), new ArrayList<>()));
    }
}
