import com.sun.source.tree.ClassTree;
import com.sun.source.tree.CompilationUnitTree;
import com.sun.source.tree.MethodTree;
import com.sun.source.tree.Tree;
import java.util.ArrayDeque;
import java.util.ArrayList;
import java.util.Deque;
import java.util.HashMap;
import java.util.HashSet;
import java.util.LinkedHashMap;
import java.util.LinkedHashSet;
import java.util.List;
import java.util.Map;
import java.util.Set;
import javax.lang.model.element.Element;
import javax.lang.model.element.ElementKind;
import javax.lang.model.element.ExecutableElement;
import javax.lang.model.element.Modifier;
import javax.lang.model.element.NestingKind;
import javax.lang.model.element.TypeElement;
import javax.lang.model.element.VariableElement;

/** The whole text while it grows: what was asked for is written until nothing new is asked. */
final class Program {
    /** How a method is called: its name, the result that its slot has, and the one that it declares itself. */
    record Slot(String name, Ty result, Ty own) {
    }

    private record Need(Copy at, ExecutableElement method, List<Ty> margs) {
    }

    final World world;
    final Inits inits = new Inits(this);
    final ObjectMethods objects = new ObjectMethods(this);
    final Captures captures;
    final Throwing throwing;
    final List<String> leftOut = new ArrayList<>();
    final Set<Copy> withStatics = new LinkedHashSet<>();
    Copy main;
    Copy.Method mainMethod;
    private final Deque<Runnable> queue = new ArrayDeque<>();
    private final Set<Need> needs = new LinkedHashSet<>();
    private final Set<List<Object>> written = new HashSet<>();
    private final Set<Long> resolved = new HashSet<>();
    private int prepared;

    Program(World world) {
        this.world = world;
        world.program = this;
        captures = new Captures(world);
        throwing = new Throwing(world.sources, world.methodNames, world.faults);
    }

    boolean catches() {
        return world.sources.hasTry;
    }

    void later(Runnable work) {
        queue.add(work);
    }

    int count() {
        return written.size() + needs.size() + world.copies.size();
    }

    void leftOut(Place place, String what) {
        leftOut.add(place + ": left out: " + what);
    }

    // ---- the work

    void build(ExecutableElement mainElement) {
        main = world.staticCopy((TypeElement) mainElement.getEnclosingElement());
        for (TypeElement one : world.sources.classes) {
            boolean member = one.getNestingKind() == NestingKind.TOP_LEVEL
                || one.getNestingKind() == NestingKind.MEMBER;
            if (member && !world.sources.isLibrary(world.sources.unitOf.get(one))) {
                world.staticCopy(one);
            }
        }
        need(main, mainElement, List.of());
        int before = -1;
        while (before != count()) {
            before = count();
            prepareAll();
            drain();
            resolve();
            drain();
            objects.settle();
        }
        objects.finish();
        drain();
        objects.tellOpened();
    }

    /** Tells the generic methods that nothing calls and the generic classes that nothing uses: there is no copy of them. */
    void tellUncalled() {
        Set<Element> methods = new HashSet<>(), classes = new HashSet<>();
        needs.forEach(need -> methods.add(need.method));
        world.copies.stream().filter(copy -> !copy.env.isEmpty()).forEach(copy -> classes.add(copy.element));
        for (TypeElement one : world.sources.classes) {
            CompilationUnitTree unit = world.sources.unitOf.get(one);
            if (world.sources.isLibrary(unit)) {
                continue;
            }
            NestingKind nesting = one.getNestingKind();
            boolean named = nesting == NestingKind.TOP_LEVEL || nesting == NestingKind.MEMBER;
            if (named && !world.variablesOf(one).isEmpty() && !classes.contains(one)) {
                leftOut(world.sources.placeOf(unit, world.sources.treeOf.get(one)), "the generic class "
                    + one.getSimpleName() + ", which nothing uses");
                continue;
            }
            for (Element member : one.getEnclosedElements()) {
                boolean generic = member instanceof ExecutableElement method && !method.getTypeParameters().isEmpty()
                    && !methods.contains(method) && world.sources.treeOf.get(method) != null;
                if (generic) {
                    leftOut(world.sources.placeOf(unit, world.sources.treeOf.get(member)), "the generic method "
                        + member.getSimpleName() + ", which nothing calls");
                }
            }
        }
    }

    private void drain() {
        prepareAll();
        while (!queue.isEmpty()) {
            queue.poll().run();
            prepareAll();
        }
    }

    private void prepareAll() {
        for (; prepared < world.copies.size(); prepared++) {
            Copy copy = world.copies.get(prepared);
            if (copy.element != null && copy.tree != null) {
                include(copy);
            }
        }
    }

    /** What a class or lambda takes from around it. */
    void prepare(Copy copy, Tree tree, Copy around) {
        Captures.Found found = captures.of(tree);
        found.locals.forEach(one -> copy.captured.put(one, world.tyOf(one, copy.env)));
        copy.outer = around;
        copy.holdsOuter = around != null && found.object;
    }

    /** The class around, where objects of this one stand in one of its objects. */
    Copy around(TypeElement element, Map<Element, Ty> env) {
        if (!world.isInner(element)) {
            return null;
        }
        Element holder = element.getEnclosingElement();
        while (!(holder instanceof TypeElement outer)) {
            if (holder == null || holder.getModifiers().contains(Modifier.STATIC)) {
                return null;
            }
            holder = holder.getEnclosingElement();
        }
        Map<Element, Ty> given = new LinkedHashMap<>();
        world.variablesOf(outer).forEach(one -> given.put(one, env.getOrDefault(one, Ty.OBJECT)));
        return world.copy(outer, given);
    }

    /** Takes up a class: its fields, and of the sources' own classes all methods. */
    private void include(Copy copy) {
        boolean isRaw = copy.env.isEmpty() && !world.variablesOf(copy.element).isEmpty();
        if (!isRaw && !copy.isInterface()) {
            for (Element member : copy.element.getEnclosedElements()) {
                if (member.getKind() == ElementKind.FIELD && !member.getModifiers().contains(Modifier.STATIC)) {
                    field(copy, (VariableElement) member, copy.fields);
                }
            }
        }
        if (isRaw || world.variablesOf(copy.element).isEmpty()) {
            statics(copy);
        }
        if (copy.isLibrary) {
            return;
        }
        for (Element member : copy.element.getEnclosedElements()) {
            if (member instanceof ExecutableElement method && (method.getTypeParameters().isEmpty()
                || !hasCopies(method))) {
                boolean isStatic = member.getModifiers().contains(Modifier.STATIC);
                boolean made = world.sources.treeOf.get(member) == null;
                if (!made && member.getKind() == ElementKind.METHOD
                    && (isStatic ? isRaw || copy.env.isEmpty() : !isRaw)) {
                    need(copy, method, List.of());
                } else if (member.getKind() == ElementKind.CONSTRUCTOR && !isRaw) {
                    later(() -> inits.name(copy, method, List.of()));
                }
            }
        }
    }

    /** A generic method is written once for each list of types that it is called with. */
    private boolean hasCopies(ExecutableElement method) {
        return true;
    }

    private void field(Copy copy, VariableElement member, List<Copy.Field> to) {
        if (member.getConstantValue() == null) {
            Place at = world.sources.placeOf(copy.unit, world.sources.treeOf.getOrDefault(member, copy.tree));
            world.place = at;
            to.add(new Copy.Field(Members.field(member), world.tyOf(member, copy.env).text(), at,
                member.getSimpleName().toString()));
        }
    }

    private void statics(Copy copy) {
        for (Element member : copy.element.getEnclosedElements()) {
            boolean isField = member.getKind() == ElementKind.FIELD || member.getKind() == ElementKind.ENUM_CONSTANT;
            if (isField && member.getModifiers().contains(Modifier.STATIC) && !copy.isLibrary) {
                field(copy, (VariableElement) member, copy.staticFields);
            }
        }
        if (!copy.isLibrary) {
            needStatic(copy);
        }
    }

    // ---- what is asked

    boolean known(Copy copy, Tree tree, Body body) {
        if (copy.element != null && copy.tree == null) {
            body.obstacle(tree, "library", copy.element.getQualifiedName() + " is not in the library");
            return false;
        }
        return true;
    }

    void create(Copy copy, Body body) {
        copy.created = true;
        copy.used = true;
        for (Copy up = copy; up != null && !up.live; up = up.superCopy) {
            up.live = true;
        }
    }

    void arrayOf(Ty type) {
        if (type.is(Ty.Kind.CLASS)) {
            type.copy.used = true;
        }
    }

    void needStatic(Copy copy) {
        if (withStatics.add(copy) && !inits.statics(copy.element).isEmpty()) {
            later(() -> copy.staticMethods.add(inits.writeStatic(copy)));
        }
    }

    /** A static field of the library, which is there where it is asked for. */
    void needStaticField(Copy at, VariableElement field) {
        List<VariableElement> all = new ArrayList<>(List.of(field));
        inits.statics(at.element).stream().map(world.sources::elementOf).filter(one -> one != null)
            .forEach(one -> all.add((VariableElement) one));
        for (VariableElement one : at.isLibrary ? all : List.<VariableElement>of()) {
            if (written.add(List.of(at, one))) {
                field(at, one, at.staticFields);
            }
        }
        needStatic(at);
    }

    void needInit(Copy copy, ExecutableElement constructor, List<Ty> wilds) {
        if (written.add(List.of(copy, constructor, wilds))) {
            later(() -> copy.methods.add(inits.write(copy, constructor, wilds)));
        }
    }

    void need(Copy at, ExecutableElement method, List<Ty> margs) {
        if (needs.add(new Need(at, method, margs))) {
            at.used |= !method.getModifiers().contains(Modifier.STATIC);
            boolean isObject = method.getEnclosingElement().toString().equals("java.lang.Object");
            boolean own = !isObject && at.element != null && method.getEnclosingElement().equals(at.element);
            if (own) {
                write(at, at, method, margs);
            }
        }
    }

    /** Asks for a method of the library by its name. */
    String needNamed(Copy copy, String name) {
        for (Copy at = copy; at != null; at = at.superCopy) {
            for (Element member : at.element.getEnclosedElements()) {
                if (member instanceof ExecutableElement method && member.getSimpleName().contentEquals(name)) {
                    need(at, method, List.of());
                    return slot(at, method, List.of()).name();
                }
            }
        }
        throw new IllegalStateException("the library has no " + copy.name + "." + name);
    }

    void local(TypeElement element, Body body) {
        Map<Element, Ty> env = new LinkedHashMap<>();
        world.variablesOf(element).forEach(one -> env.put(one, body.env.getOrDefault(one, Ty.OBJECT)));
        if (element.getTypeParameters().isEmpty()) {
            world.copy(element, env);
        }
    }

    Slot slot(Copy at, ExecutableElement method, List<Ty> margs) {
        Map<Element, Ty> env = environment(at, method, margs);
        World.Found root = root(at, method);
        StringBuilder name = new StringBuilder(world.methodNames.of(method));
        margs.forEach(one -> name.append('_').append(one.key()));
        Ty result = world.ty(root.method().getReturnType(), environment(root.copy(), root.method(), margs));
        return new Slot(name.toString(), result, world.ty(method.getReturnType(), env));
    }

    private static Map<Element, Ty> environment(Copy at, ExecutableElement method, List<Ty> margs) {
        Map<Element, Ty> env = new HashMap<>(at.env);
        Wilds.put(env, method, margs);
        return env;
    }

    /** The topmost method that one overrides. */
    private World.Found root(Copy at, ExecutableElement method) {
        if (!method.getModifiers().contains(Modifier.STATIC)) {
            List<Copy> above = new ArrayList<>();
            if (at.superCopy != null) {
                above.add(at.superCopy);
            }
            above.addAll(at.interfaces);
            for (Copy up : above) {
                World.Found found = world.find(up, method);
                if (found != null) {
                    return root(found.copy(), found.method());
                }
            }
        }
        return new World.Found(at, method);
    }

    /** Writes for each class of which there are objects what its objects run for what was asked. */
    private void resolve() {
        int number = 0;
        for (Need need : List.copyOf(needs)) {
            number++;
            if (need.method.getModifiers().contains(Modifier.STATIC) || world.methodNames.isOnlyDefault(need.method)) {
                continue;
            }
            for (Copy copy : List.copyOf(world.copies)) {
                boolean has = copy.live || !copy.isLibrary && !copy.isInterface();
                if (has && resolved.add(number * 100000L + copy.number) && copy.tree != null && !copy.isInterface()
                    && copy.isBelow(need.at)) {
                    World.Found found = world.find(copy, need.method);
                    if (found != null && World.isBody(found)) {
                        write(found.copy().isInterface() ? lowest(copy, found) : found.copy(), found.copy(),
                            found.method(), need.margs);
                    }
                }
            }
        }
    }

    /** Writes what a class has from an interface into a class above, so that it can be called by `super`. */
    void needInherited(Copy above, ExecutableElement method, List<Ty> margs) {
        World.Found found = world.find(above, method);
        if (found != null && found.copy().isInterface() && World.isBody(found)) {
            write(lowest(above, found), found.copy(), found.method(), margs);
        }
    }

    /** The topmost class at or above one that gets the same body from an interface. */
    private Copy lowest(Copy copy, World.Found found) {
        Copy up = copy.superCopy;
        World.Found above = up == null ? null : world.find(up, found.method());
        return above != null && above.method().equals(found.method()) ? lowest(up, above) : copy;
    }

    // ---- methods

    private void write(Copy to, Copy from, ExecutableElement method, List<Ty> margs) {
        if (written.add(List.of(to, method, margs))) {
            later(() -> writeNow(to, from, method, margs));
        }
    }

    private void writeNow(Copy to, Copy from, ExecutableElement method, List<Ty> margs) {
        Set<Modifier> modifiers = method.getModifiers();
        MethodTree tree = (MethodTree) world.sources.treeOf.get(method);
        boolean isStatic = modifiers.contains(Modifier.STATIC);
        boolean ofString = to.element != null && to.element.toString().equals("java.lang.String");
        if (modifiers.contains(Modifier.NATIVE) && ofString) {
            return;
        }
        boolean hasBody = !modifiers.contains(Modifier.ABSTRACT);
        boolean withSelf = ofString || world.methodNames.isOnlyDefault(method);
        if (hasBody && from.isInterface() && to == from && !isStatic && !withSelf) {
            hasBody = false;
        }
        Body body = new Body(this, to, environment(from, method, margs), isStatic);
        Slot slot = slot(from, method, margs);
        Copy.Method made = new Copy.Method();
        made.name = slot.name();
        made.was = method.getSimpleName().toString();
        made.isStatic = isStatic || withSelf;
        made.isPublic = modifiers.contains(Modifier.PUBLIC) && !made.isStatic || method == mainElement();
        made.result = slot.result().text();
        made.at = tree == null ? body.placeOf(to.tree) : body.placeOf(tree);
        body.place = made.at;
        world.place = made.at;
        body.result = slot.result();
        if (withSelf && !isStatic) {
            body.self = Ex.local("self", ofString ? Ty.STRING : to.ty);
            made.params.add(body.self.type.text() + " self");
            to.used |= !ofString;
        }
        for (VariableElement one : method.getParameters()) {
            Ty type = world.parameter(one, body.env);
            made.params.add(type.text() + " " + body.declare(one, type));
        }
        made.locals = body.names();
        boolean isMain = to == main && made.name.equals("main") && isStatic;
        body.isMain = isMain;
        made.body = hasBody ? Finish.finish(statements(body, to, method, tree), body.result, body) : null;
        if (isMain) {
            mainMethod = made;
        }
        (made.isStatic ? to.staticMethods : to.methods).add(made);
    }

    private ExecutableElement mainElement() {
        return needs.iterator().next().method;
    }

    private List<St> statements(Body body, Copy to, ExecutableElement method, MethodTree tree) {
        return body.within(() -> {
            if (tree != null && tree.getBody() != null && !Records.isRecord(to) || tree != null
                && tree.getBody() != null && !tree.getBody().getStatements().isEmpty()) {
                if (method.getModifiers().contains(Modifier.SYNCHRONIZED)) {
                    body.obstacle(tree, "synchronized", "threads are not brought in; leave the word out");
                }
                tree.getBody().getStatements().forEach(body::statement);
            } else if (!Records.write(body, to, method) && !Enums.write(body, to, method)) {
                body.obstacle(tree == null ? to.tree : tree, "method", method + " has no body that can be read");
            }
        });
    }
}
