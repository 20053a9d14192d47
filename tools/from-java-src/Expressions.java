import com.sun.source.tree.ArrayAccessTree;
import com.sun.source.tree.AssignmentTree;
import com.sun.source.tree.BinaryTree;
import com.sun.source.tree.CompoundAssignmentTree;
import com.sun.source.tree.ConditionalExpressionTree;
import com.sun.source.tree.ExpressionTree;
import com.sun.source.tree.IdentifierTree;
import com.sun.source.tree.InstanceOfTree;
import com.sun.source.tree.LambdaExpressionTree;
import com.sun.source.tree.LiteralTree;
import com.sun.source.tree.MemberReferenceTree;
import com.sun.source.tree.MemberSelectTree;
import com.sun.source.tree.MethodInvocationTree;
import com.sun.source.tree.NewArrayTree;
import com.sun.source.tree.NewClassTree;
import com.sun.source.tree.ParenthesizedTree;
import com.sun.source.tree.SwitchExpressionTree;
import com.sun.source.tree.Tree;
import com.sun.source.tree.TypeCastTree;
import com.sun.source.tree.UnaryTree;
import com.sun.source.tree.VariableTree;
import java.util.List;
import java.util.function.Function;
import javax.lang.model.element.Element;
import javax.lang.model.element.ElementKind;
import javax.lang.model.element.Modifier;
import javax.lang.model.element.TypeElement;
import javax.lang.model.element.VariableElement;
import javax.lang.model.type.TypeKind;
import javax.lang.model.type.TypeMirror;

/** Expressions of the sources as expressions of the text, with statements before them where they need some. */
final class Expressions {
    private final Body body;

    Expressions(Body body) {
        this.body = body;
    }

    /** An expression; `wanted` is the type that is asked where it stands, or null. */
    Ex ex(ExpressionTree tree, Ty wanted) {
        TypeMirror type = body.world.sources.typeOf(tree);
        if (type != null && (type.getKind() == TypeKind.DOUBLE || type.getKind() == TypeKind.FLOAT
            || type.getKind() == TypeKind.LONG)) {
            return refusedNumber(tree, type);
        }
        switch (tree.getKind()) {
            case PARENTHESIZED: return ex(((ParenthesizedTree) tree).getExpression(), wanted);
            case IDENTIFIER: return identifier((IdentifierTree) tree);
            case MEMBER_SELECT: return select((MemberSelectTree) tree);
            case ARRAY_ACCESS: return element((ArrayAccessTree) tree);
            case ASSIGNMENT: return body.operators.assign((AssignmentTree) tree, true);
            case CONDITIONAL_EXPRESSION: return conditional((ConditionalExpressionTree) tree, wanted);
            case METHOD_INVOCATION: return body.calls.invocation((MethodInvocationTree) tree, wanted);
            case NEW_CLASS: return body.creations.creation((NewClassTree) tree, null);
            case NEW_ARRAY: return body.creations.array((NewArrayTree) tree, wanted, null);
            case TYPE_CAST: return cast((TypeCastTree) tree);
            case INSTANCE_OF: return instanceOf((InstanceOfTree) tree);
            case LAMBDA_EXPRESSION: return body.lambdas.lambda((LambdaExpressionTree) tree, wanted);
            case MEMBER_REFERENCE: return body.lambdas.reference((MemberReferenceTree) tree, wanted);
            case SWITCH_EXPRESSION: return body.switches.expression((SwitchExpressionTree) tree, wanted);
            default: return other(tree);
        }
    }

    private Ex other(ExpressionTree tree) {
        if (tree instanceof LiteralTree literal) {
            return Literals.of(literal.getValue());
        }
        if (tree instanceof BinaryTree binary) {
            return body.operators.binary(binary);
        }
        if (tree instanceof UnaryTree unary) {
            return body.operators.unary(unary, true);
        }
        if (tree instanceof CompoundAssignmentTree compound) {
            return body.operators.compound(compound, true);
        }
        return body.obstacleEx(tree, tree.getKind().toString().toLowerCase().replace('_', ' '), "it is not brought in");
    }

    private Ex refusedNumber(Tree tree, TypeMirror type) {
        body.obstacle(tree, type.toString(), World.numberAdvice(type));
        return Ex.constant("0", Ty.INT);
    }

    // ---- names

    private Ex identifier(IdentifierTree tree) {
        String name = tree.getName().toString();
        if (name.equals("this")) {
            return body.thisObject();
        }
        Element element = body.elementOf(tree);
        if (World.isLocal(element)) {
            return local(element, tree);
        }
        return element instanceof VariableElement variable ? field(null, variable, tree) : Ex.constant("null", Ty.NULL);
    }

    /** A local of this body, or one that the class of this body took from the method around it. */
    Ex local(Element element, Tree tree) {
        Object constant = element.getModifiers().contains(Modifier.FINAL)
            ? ((VariableElement) element).getConstantValue() : null;
        if (constant != null && body.nameOf(element) == null) {
            return Literals.of(constant, body.ty(element.asType()));
        }
        if (body.nameOf(element) != null) {
            return Ex.local(body.nameOf(element), body.localTypes.get(element));
        }
        Ex at = body.self;
        for (Copy copy = body.owner; copy != null && at != null; copy = copy.outer) {
            if (copy.captured.containsKey(element)) {
                return new Ex(at.text + "." + Captures.name(element), Ex.POST, copy.captured.get(element), at.pure,
                    at.reads);
            }
            at = new Ex(at.text + "." + Members.outer(copy), Ex.POST, copy.outer == null ? copy.ty : copy.outer.ty,
                at.pure, at.reads);
        }
        return body.obstacleEx(tree, "captured local", "the variable " + element
            + " is not at hand here; give it as an argument");
    }

    /** A field of an object, of this one or one around it where `base` is null, or a static one. */
    Ex field(Ex base, VariableElement field, Tree tree) {
        if (field.getConstantValue() != null) {
            return Literals.of(field.getConstantValue(), body.ty(field.asType()));
        }
        TypeElement holder = (TypeElement) field.getEnclosingElement();
        if (field.getModifiers().contains(Modifier.STATIC)) {
            Copy at = body.world.staticCopy(holder);
            if (!body.program.known(at, tree, body)) {
                return Ex.constant("null", Ty.NULL);
            }
            body.program.needStaticField(at, field);
            return Ex.active(at.staticToken() + "." + Members.field(field), Ex.POST,
                body.world.tyOf(field, at.env));
        }
        Ex from = base == null ? body.around(holder) : base;
        if (from == null || !from.type.is(Ty.Kind.CLASS) || from.type.copy.as(holder) == null) {
            return body.obstacleEx(tree, "field", "the object of the field " + field + " is not at hand here");
        }
        Ty type = body.world.tyOf(field, from.type.copy.as(holder).env);
        return Ex.active(from.at(Ex.POST) + "." + Members.field(field), Ex.POST, type);
    }

    private Ex select(MemberSelectTree tree) {
        Element element = body.elementOf(tree);
        String name = tree.getIdentifier().toString();
        if (name.equals("this")) {
            Ex around = body.around(body.elementOf(tree.getExpression()));
            return around != null ? around : body.obstacleEx(tree, "outer this",
                "the object around is not at hand here");
        }
        if (element instanceof VariableElement variable && element.getModifiers().contains(Modifier.STATIC)) {
            return field(null, variable, tree);
        }
        if (name.equals("length") && (element == null || element.getKind() == ElementKind.FIELD)
            && isArray(tree.getExpression())) {
            Ex array = body.ex(tree.getExpression());
            return Ex.active(array.at(Ex.POST) + ".length", Ex.POST, Ty.INT);
        }
        if (element instanceof VariableElement variable) {
            boolean isSuper = tree.getExpression() instanceof IdentifierTree id && id.getName().contentEquals("super");
            return field(isSuper ? body.self : body.ex(tree.getExpression()), variable, tree);
        }
        return body.obstacleEx(tree, "class literal", "reflection is not brought in");
    }

    private boolean isArray(ExpressionTree tree) {
        TypeMirror type = body.world.sources.typeOf(tree);
        return type != null && type.getKind() == TypeKind.ARRAY;
    }

    private Ex element(ArrayAccessTree tree) {
        List<Ex> parts = body.operands(List.of(() -> body.ex(tree.getExpression()), () ->
            body.exTo(tree.getIndex(), Ty.INT)));
        if (body.world.faults.isChecked(tree)) {
            parts = List.of(body.spill(parts.get(0)), body.spill(parts.get(1)));
            body.exceptions.checkPlace(parts.get(1), lengthOf(parts.get(0)), true);
            return body.spill(elementOf(parts.get(0), parts.get(1)));
        }
        return elementOf(parts.get(0), parts.get(1));
    }

    static Ex lengthOf(Ex array) {
        return Ex.active(array.at(Ex.POST) + ".length", Ex.POST, Ty.INT);
    }

    static Ex elementOf(Ex array, Ex index) {
        Ty type = array.type.is(Ty.Kind.ARRAY) ? array.type.of : Ty.OBJECT;
        return Ex.active(array.at(Ex.POST) + "[" + index.text + "]", Ex.POST, type);
    }

    // ---- choices

    /** A choice between values of types that have little in common, as a text. */
    Ex textOf(ConditionalExpressionTree tree) {
        return choice(tree, Ty.STRING, part -> body.conversions.string(body.ex(part), part));
    }

    private Ex conditional(ConditionalExpressionTree tree, Ty wanted) {
        Ty own = body.tyOf(tree);
        Ty type = own.isReference() && wanted != null && wanted.isReference() && !wanted.is(Ty.Kind.NULL) ? wanted
            : own;
        if (type.is(Ty.Kind.NULL)) {
            type = wanted != null ? wanted : Ty.OBJECT;
        }
        Ty at = type;
        return choice(tree, at, part -> body.exTo(part, at));
    }

    private Ex choice(ConditionalExpressionTree tree, Ty type, Function<ExpressionTree, Ex> part) {
        Ex test = body.test(tree.getCondition());
        String name = body.fresh(type);
        Ex[] values = new Ex[2];
        List<St> then = body.within(() -> values[0] = part.apply(tree.getTrueExpression()));
        List<St> other = body.within(() -> values[1] = part.apply(tree.getFalseExpression()));
        boolean simple = other.isEmpty() && values[1].pure && test.pure;
        body.emit(new St.Let(type.text(), name, simple ? values[1].text : type.initial()));
        List<St> otherwise = body.within(() -> {
            if (!simple) {
                body.out.addAll(other);
                body.setLocal(name, values[1]);
            }
        });
        body.emit(new St.If(test, body.within(() -> {
            body.out.addAll(then);
            body.setLocal(name, values[0]);
        }), otherwise));
        return Ex.local(name, type);
    }

    // ---- casts

    private Ex cast(TypeCastTree tree) {
        if (Roots.isWhole(body.world.sources, tree)) {
            return Roots.whole(body, tree);
        }
        Ty to = body.tyOf(tree.getType());
        Tree inner = tree.getExpression();
        while (inner instanceof ParenthesizedTree bracketed) {
            inner = bracketed.getExpression();
        }
        if (to.is(Ty.Kind.ARRAY) && inner instanceof NewArrayTree array) {
            return body.creations.array(array, to, null);
        }
        Ex value = body.expressions.ex(tree.getExpression(), to.isReference() ? to : null);
        Ty type = to.is(Ty.Kind.CLASS) ? asked(tree.getType(), value) : to;
        if (isUnknown(tree.getType(), value, type)) {
            body.program.objects.opened(type.copy, body.placeOf(tree));
        }
        return body.conversions.cast(value, type, tree);
    }

    private Ex instanceOf(InstanceOfTree tree) {
        Tree named = tree.getPattern() == null ? tree.getType()
            : ((com.sun.source.tree.BindingPatternTree) tree.getPattern()).getVariable().getType();
        Ex value = body.ex(tree.getExpression());
        Ty type = asked(named, value);
        if (isUnknown(named, value, type)) {
            Ex kept = body.settle(value);
            Ex is = body.program.objects.isOf(body, kept, type.copy.element);
            return tree.getPattern() == null ? is : bound(tree, type, kept, is);
        }
        if (tree.getPattern() == null) {
            return body.conversions.instanceOf(value, type, tree);
        }
        Ex kept = body.settle(value);
        return bound(tree, type, kept, body.conversions.instanceOf(kept, type, tree));
    }

    /** The type that a test or a cast names; of a generic class without type arguments the copy that the value may be. */
    private Ty asked(Tree named, Ex value) {
        Ty type = body.tyOf(named);
        if (type.is(Ty.Kind.CLASS) && value.type.is(Ty.Kind.CLASS)
            && body.world.isOpen(body.world.sources.typeOf(named), body.env)) {
            Copy found = body.world.below(type.copy.element, value.type.copy);
            return found == null ? type : found.ty;
        }
        return type;
    }

    private boolean isUnknown(Tree named, Ex value, Ty type) {
        return type.is(Ty.Kind.CLASS) && value.type.is(Ty.Kind.OBJECT)
            && body.world.isOpen(body.world.sources.typeOf(named), body.env);
    }

    /** A test with a variable that has the value where it is passed. */
    private Ex bound(InstanceOfTree tree, Ty type, Ex kept, Ex is) {
        VariableTree variable = ((com.sun.source.tree.BindingPatternTree) tree.getPattern()).getVariable();
        Element element = body.elementOf(variable);
        String name = body.statements.bind(element, type);
        String test = body.fresh(Ty.BOOLEAN);
        body.emit(new St.Let("boolean", test, is.text));
        if (kept.type.is(Ty.Kind.OBJECT) && type.is(Ty.Kind.CLASS) && !type.copy.element.getTypeParameters().isEmpty()) {
            body.program.objects.opened(type.copy, body.placeOf(tree));
        }
        body.emit(new St.If(Ex.local(test, Ty.BOOLEAN), body.within(() ->
            body.setLocal(name, body.conversions.cast(kept, type, tree))), List.of()));
        return Ex.local(test, Ty.BOOLEAN);
    }
}
