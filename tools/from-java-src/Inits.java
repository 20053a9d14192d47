import com.sun.source.tree.BlockTree;
import com.sun.source.tree.ExpressionStatementTree;
import com.sun.source.tree.ExpressionTree;
import com.sun.source.tree.IdentifierTree;
import com.sun.source.tree.LiteralTree;
import com.sun.source.tree.MemberSelectTree;
import com.sun.source.tree.MethodInvocationTree;
import com.sun.source.tree.MethodTree;
import com.sun.source.tree.StatementTree;
import com.sun.source.tree.Tree;
import com.sun.source.tree.VariableTree;
import java.util.ArrayList;
import java.util.HashMap;
import java.util.List;
import java.util.Map;
import java.util.function.Supplier;
import javax.lang.model.element.Element;
import javax.lang.model.element.ExecutableElement;
import javax.lang.model.element.Modifier;
import javax.lang.model.element.TypeElement;
import javax.lang.model.element.VariableElement;

/** Constructors and first values of fields, as instance methods that are called on the new object. */
final class Inits {
    private final Program program;

    Inits(Program program) {
        this.program = program;
    }

    /** The method that a constructor became, or null where there is nothing to do. */
    String name(Copy copy, ExecutableElement constructor, List<Ty> wilds) {
        if (isTrivial(copy, constructor)) {
            return null;
        }
        program.needInit(copy, constructor, wilds);
        return methodName(copy, constructor, wilds);
    }

    private String methodName(Copy copy, ExecutableElement constructor, List<Ty> wilds) {
        StringBuilder name = new StringBuilder("init").append(copy.element.getSimpleName())
            .append(program.world.methodNames.of(constructor));
        wilds.forEach(one -> name.append('_').append(one.key()));
        return name.toString();
    }

    private MethodTree treeOf(ExecutableElement constructor) {
        return (MethodTree) program.world.sources.treeOf.get(constructor);
    }

    /** The call of another constructor with which a constructor begins, or null. */
    private static MethodInvocationTree first(MethodTree tree) {
        List<? extends StatementTree> all = tree.getBody().getStatements();
        if (!all.isEmpty() && all.get(0) instanceof ExpressionStatementTree one
            && one.getExpression() instanceof MethodInvocationTree call) {
            String name = call.getMethodSelect() instanceof IdentifierTree id ? id.getName().toString()
                : call.getMethodSelect() instanceof MemberSelectTree select ? select.getIdentifier().toString() : "";
            return name.equals("super") || name.equals("this") ? call : null;
        }
        return null;
    }

    private static boolean isThis(MethodInvocationTree call) {
        return call != null && call.getMethodSelect() instanceof IdentifierTree id
            && id.getName().contentEquals("this");
    }

    private boolean isTrivial(Copy copy, ExecutableElement constructor) {
        MethodTree tree = treeOf(constructor);
        if (tree == null) {
            return !Records.isRecord(copy) && firstValues(copy).isEmpty() && above(copy) == null;
        }
        MethodInvocationTree call = first(tree);
        boolean more = tree.getBody().getStatements().size() > (call == null ? 0 : 1);
        if (more || isThis(call) || !firstValues(copy).isEmpty() || Records.assigns(program, copy, constructor)) {
            return false;
        }
        Copy above = above(copy);
        return above == null || call == null || isTrivial(above,
            (ExecutableElement) program.world.sources.elementOf(call));
    }

    /** The class above, but for that of all enums. */
    private static Copy above(Copy copy) {
        boolean none = copy.superCopy == null || copy.superCopy.element.toString().equals("java.lang.Enum");
        return none ? null : copy.superCopy;
    }

    /** Fields with first values and blocks of a class, in the order of the text. */
    private List<Tree> firstValues(Copy copy) {
        List<Tree> all = new ArrayList<>();
        for (Tree member : program.world.classTree(copy).getMembers()) {
            if (member instanceof BlockTree block && !block.isStatic()) {
                all.add(member);
            }
            if (member instanceof VariableTree field && field.getInitializer() != null) {
                VariableElement element = (VariableElement) program.world.sources.elementOf(field);
                boolean here = !element.getModifiers().contains(Modifier.STATIC) && element.getConstantValue() == null;
                if (here && !(above(copy) == null && isDefault(field.getInitializer()))) {
                    all.add(member);
                }
            }
        }
        return all;
    }

    /** Whether a value is the one that a new field has anyway. */
    static boolean isDefault(ExpressionTree tree) {
        Object value = tree instanceof LiteralTree literal ? literal.getValue() : tree;
        return value == null || value.equals(0) || value.equals(false) || value.equals('\0');
    }

    Copy.Method write(Copy copy, ExecutableElement constructor, List<Ty> wilds) {
        MethodTree tree = treeOf(constructor);
        Map<Element, Ty> env = new HashMap<>(copy.env);
        Wilds.put(env, constructor, wilds);
        Body body = new Body(program, copy, env, false);
        Copy.Method method = new Copy.Method();
        method.name = methodName(copy, constructor, wilds);
        method.was = copy.element.getSimpleName().toString();
        method.result = "void";
        method.at = tree == null ? body.placeOf(copy.tree) : body.placeOf(tree);
        body.place = method.at;
        for (VariableElement one : constructor.getParameters()) {
            Ty type = body.world.parameter(one, body.env);
            method.params.add(type.text() + " " + body.declare(one, type));
        }
        List<St> made = body.within(() -> {
            MethodInvocationTree call = tree == null ? null : first(tree);
            body.statements.hoisting(() -> begin(body, copy, call));
            if (!isThis(call)) {
                firstValues(copy).forEach(one -> firstValue(body, one));
            }
            if (tree != null) {
                tree.getBody().getStatements().stream().skip(call == null ? 0 : 1).forEach(body::statement);
            }
            Records.assign(program, copy, constructor, body);
        });
        method.body = Finish.finish(made, Ty.VOID, body);
        method.locals = body.names();
        return method;
    }

    private void begin(Body body, Copy copy, MethodInvocationTree call) {
        Copy to = isThis(call) ? copy : above(copy);
        if (call == null || to == null) {
            return;
        }
        body.place = body.placeOf(call);
        ExecutableElement other = (ExecutableElement) body.elementOf(call);
        List<Ty> wilds = Wilds.with(body, other, to.env, List.of(), call.getArguments());
        Map<Element, Ty> env = new HashMap<>(to.env);
        Wilds.put(env, other, wilds);
        List<Supplier<Ex>> parts = body.calls.arguments(other, env, call.getArguments(), call);
        List<Ex> values = body.operands(parts);
        String name = name(to, other, wilds);
        if (name != null) {
            body.emit(new St.Do(name + Calls.joined(values)));
            body.exceptions.after(other);
        }
    }

    private void firstValue(Body body, Tree member) {
        body.place = body.placeOf(member);
        if (member instanceof BlockTree block) {
            body.emit(new St.Block(body.scoped(() -> block.getStatements().forEach(body::statement))));
            return;
        }
        VariableTree field = (VariableTree) member;
        VariableElement element = (VariableElement) body.elementOf(field);
        body.statements.hoisting(() -> {
            Ex value = initial(body, field.getInitializer(), body.tyOf(element));
            body.set("this." + Members.field(element), value);
        });
    }

    static Ex initial(Body body, ExpressionTree value, Ty type) {
        return value instanceof com.sun.source.tree.NewArrayTree array ? body.creations.array(array, type, null)
            : body.exTo(value, type);
    }

    // ---- static members

    /** Static fields with first values, constants of enums and static blocks of a class. */
    List<Tree> statics(TypeElement element) {
        List<Tree> all = new ArrayList<>();
        if (!(program.world.sources.treeOf.get(element) instanceof com.sun.source.tree.ClassTree tree)) {
            return all;
        }
        for (Tree member : tree.getMembers()) {
            if (member instanceof BlockTree block && block.isStatic()) {
                all.add(member);
            }
            if (member instanceof VariableTree field && field.getInitializer() != null) {
                VariableElement one = (VariableElement) program.world.sources.elementOf(field);
                boolean here = one.getModifiers().contains(Modifier.STATIC) && one.getConstantValue() == null;
                if (here && !isDefault(field.getInitializer())) {
                    all.add(member);
                }
            }
        }
        return all;
    }

    Copy.Method writeStatic(Copy at) {
        Body body = new Body(program, at, at.env, true);
        Copy.Method method = new Copy.Method();
        method.name = "initStatics";
        method.isStatic = true;
        method.result = "void";
        method.at = body.placeOf(at.tree);
        int[] ordinal = {0};
        List<St> made = body.within(() -> {
            for (Tree member : statics(at.element)) {
                body.place = body.placeOf(member);
                if (member instanceof BlockTree block) {
                    body.emit(new St.Block(body.scoped(() -> block.getStatements().forEach(body::statement))));
                    continue;
                }
                VariableTree field = (VariableTree) member;
                VariableElement element = (VariableElement) body.elementOf(field);
                body.statements.hoisting(() -> staticValue(body, at, field, element, ordinal));
            }
        });
        method.body = Finish.finish(made, Ty.VOID, body);
        method.locals = body.names();
        return method;
    }

    private void staticValue(Body body, Copy at, VariableTree field, VariableElement element, int[] ordinal) {
        String target = at.staticToken() + "." + Members.field(element);
        if (element.getKind() == javax.lang.model.element.ElementKind.ENUM_CONSTANT) {
            Enums.constant(body, target, field, element, ordinal[0]++);
        } else {
            body.set(target, initial(body, field.getInitializer(), body.tyOf(element)));
        }
    }
}
