import com.sun.source.tree.ExpressionTree;
import com.sun.source.tree.StatementTree;
import com.sun.source.tree.Tree;
import java.util.ArrayDeque;
import java.util.ArrayList;
import java.util.Deque;
import java.util.HashMap;
import java.util.HashSet;
import java.util.LinkedHashMap;
import java.util.List;
import java.util.Map;
import java.util.Set;
import java.util.function.Supplier;
import javax.lang.model.element.Element;
import javax.lang.model.type.TypeMirror;

/** The body of one method of the text while it is written: its names, and the statements made so far. */
final class Body {
    final Program program;
    final World world;
    final Copy owner;
    final Map<Element, Ty> env;
    final boolean isStatic;
    Ty result = Ty.VOID;
    Ex self; // what `this` is
    List<St> out = new ArrayList<>();
    Place place;
    final Map<Element, Ty> localTypes = new HashMap<>();
    final Set<Element> shared = new HashSet<>(); // declared before the switch in which they stand
    boolean isMain;
    Deque<Target> targets = new ArrayDeque<>();
    final Expressions expressions = new Expressions(this);
    final Operators operators = new Operators(this);
    final Calls calls = new Calls(this);
    final Creations creations = new Creations(this);
    final Lambdas lambdas = new Lambdas(this);
    final Conversions conversions = new Conversions(this);
    final Statements statements = new Statements(this);
    final Switches switches = new Switches(this);
    final Exceptions exceptions = new Exceptions(this);
    private final Map<Element, String> names = new LinkedHashMap<>();
    private final Deque<Set<String>> scopes = new ArrayDeque<>();
    private final Set<String> given = new HashSet<>();
    private final Set<String> declared = new HashSet<>();

    /** What a break or a continue may leave: a loop or a switch, or a try whose last part is run first. */
    static final class Target {
        St.Loop loop;
        String label;
        boolean isLoop;
        Runnable next = () -> { }; // what is done before the next turn
        Runnable last; // the finally of a try
        boolean breaks = true;
        boolean isTry; // a throw ends here
    }

    Body(Program program, Copy owner, Map<Element, Ty> env, boolean isStatic) {
        this.program = program;
        world = program.world;
        this.owner = owner;
        this.env = env;
        this.isStatic = isStatic;
        self = isStatic ? null : Ex.constant("this", owner.ty);
        scopes.push(new HashSet<>());
    }

    // ---- types and elements

    Ty ty(TypeMirror type) {
        return world.ty(type, env);
    }

    Ty tyOf(Element variable) {
        return world.tyOf(variable, env);
    }

    Ty tyOf(Tree tree) {
        TypeMirror type = world.sources.typeOf(tree);
        return type == null ? Ty.OBJECT : ty(type);
    }

    Element elementOf(Tree tree) {
        return world.sources.elementOf(tree);
    }

    Place placeOf(Tree tree) {
        return world.sources.placeOf(owner.unit, tree);
    }

    void obstacle(Tree tree, String form, String advice) {
        world.obstacles.add(tree == null ? place : placeOf(tree), form, advice);
    }

    /** An obstacle, and something in the place of the expression. */
    Ex obstacleEx(Tree tree, String form, String advice) {
        obstacle(tree, form, advice);
        return Ex.constant("null", Ty.NULL);
    }

    // ---- names

    void open() {
        scopes.push(new HashSet<>());
    }

    void close() {
        scopes.pop();
    }

    private boolean isVisible(String name) {
        return scopes.stream().anyMatch(scope -> scope.contains(name));
    }

    /** A name for a variable of the sources, in the scope that is open. */
    String declare(Element variable, Ty type) {
        String wanted = variable.getSimpleName().toString();
        wanted = wanted.equals("self") || wanted.equals("outer") ? wanted + "_" : wanted;
        String name = wanted;
        for (int k = 2; isVisible(name) || given.contains(name); k++) {
            name = wanted + k;
        }
        scopes.peek().add(name);
        declared.add(name);
        names.put(variable, name);
        localTypes.put(variable, type);
        return name;
    }

    /** A name for a variable of a pattern, which nothing else in the body has. */
    String declareWide(Element variable, Ty type) {
        String name = variable.getSimpleName().toString();
        for (int k = 2; declared.contains(name) || !given.add(name); k++) {
            name = variable.getSimpleName().toString() + k;
        }
        names.put(variable, name);
        localTypes.put(variable, type);
        return name;
    }

    String nameOf(Element variable) {
        return names.get(variable);
    }

    /** What the variables of the sources are called. */
    Map<Element, String> names() {
        return names;
    }

    /** A name of our own, which nothing else in the body has. */
    String fresh(Ty type) {
        String base = switch (type.kind) {
            case INT, BYTE, SHORT -> "number";
            case BOOLEAN -> "test";
            case CHAR -> "mark";
            case STRING -> "text";
            case ARRAY -> "array";
            case CLASS -> lower(type.copy.element == null ? "function" : type.copy.element.getSimpleName().toString());
            default -> "value";
        };
        return fresh(base);
    }

    private static String lower(String name) {
        return name.isEmpty() ? "value" : Character.toLowerCase(name.charAt(0)) + name.substring(1);
    }

    String fresh(String base) {
        for (int k = 1;; k++) {
            String name = base + k;
            if (!world.sources.variableNames.contains(name) && !isVisible(name) && given.add(name)) {
                return name;
            }
        }
    }

    // ---- statements

    void emit(St one) {
        one.at = one.at == null ? place : one.at;
        out.add(one);
    }

    void set(String target, Ex value) {
        emit(new St.Set_(target, value.text, null));
    }

    void setLocal(String name, Ex value) {
        emit(new St.Set_(name, value.text, name));
    }

    /** The statements that an action makes. */
    List<St> within(Runnable action) {
        List<St> saved = out;
        out = new ArrayList<>();
        action.run();
        List<St> made = out;
        out = saved;
        return made;
    }

    List<St> scoped(Runnable action) {
        open();
        List<St> made = within(action);
        close();
        return made;
    }

    /** Keeps a value in a local of its own. */
    Ex spill(Ex value) {
        if (value.pure && value.reads.isEmpty() && !value.text.contains(" ")) {
            return value;
        }
        String name = fresh(value.type);
        emit(new St.Let(value.type.text(), name, value.text));
        return Ex.local(name, value.type);
    }

    /** The same without another local where the value is one that stays as it is. */
    Ex settle(Ex value) {
        return value.pure && value.level == Ex.POST && value.reads.size() <= 1 ? value : spill(value);
    }

    /** Values of parts in Java's order: what stands before a part that needs statements is kept. */
    List<Ex> operands(List<Supplier<Ex>> parts) {
        List<Ex> values = new ArrayList<>();
        List<List<St>> before = new ArrayList<>();
        int last = -1;
        for (Supplier<Ex> part : parts) {
            Ex[] value = new Ex[1];
            before.add(within(() -> value[0] = part.get()));
            values.add(value[0]);
            last = before.get(before.size() - 1).isEmpty() ? last : before.size() - 1;
        }
        for (int k = 0; k < values.size(); k++) {
            out.addAll(before.get(k));
            if (k < last && values.get(k) != null) {
                Set<String> assigned = new HashSet<>();
                before.subList(k + 1, last + 1).forEach(list -> assigned.addAll(St.assigned(list)));
                Ex value = values.get(k);
                if (!value.pure || value.reads.stream().anyMatch(assigned::contains)) {
                    values.set(k, spill(value));
                }
            }
        }
        return values;
    }

    // ---- short ways

    Ex ex(ExpressionTree tree) {
        return expressions.ex(tree, null);
    }

    Ex exTo(ExpressionTree tree, Ty target) {
        return conversions.convert(expressions.ex(tree, target), target, tree);
    }

    /** A boolean. */
    Ex test(ExpressionTree tree) {
        return exTo(tree, Ty.BOOLEAN);
    }

    void statement(StatementTree tree) {
        Place saved = place;
        place = placeOf(tree);
        world.place = place;
        statements.statement(tree);
        place = saved;
    }

    /** Leaves the method where nothing is returned that anybody looks at. */
    void leave() {
        emit(new St.Return(result.is(Ty.Kind.VOID) ? null : result.initial()));
    }

    /** What `this` is in the sources: not the object of a lambda, but the one around it. */
    Ex thisObject() {
        Copy copy = owner;
        Ex at = self;
        for (; copy.element == null && copy.outer != null; copy = copy.outer) {
            at = new Ex(at.text + "." + Members.outer(copy), Ex.POST, copy.outer.ty, at.pure, at.reads);
        }
        return at;
    }

    /** The text of the object of a class around, or `this`. */
    Ex around(Element holder) {
        Ex at = self;
        Copy copy = owner;
        while (copy != null && (copy.element == null || copy.as(holder) == null)) {
            if (copy.outer == null || at == null) {
                return null;
            }
            at = new Ex(at.text + "." + Members.outer(copy), Ex.POST, copy.outer.ty, at.pure, at.reads);
            copy = copy.outer;
        }
        return at;
    }
}
