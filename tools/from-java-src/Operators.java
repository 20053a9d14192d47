import com.sun.source.tree.ArrayAccessTree;
import com.sun.source.tree.AssignmentTree;
import com.sun.source.tree.BinaryTree;
import com.sun.source.tree.CompoundAssignmentTree;
import com.sun.source.tree.ConditionalExpressionTree;
import com.sun.source.tree.ExpressionTree;
import com.sun.source.tree.IdentifierTree;
import com.sun.source.tree.MemberSelectTree;
import com.sun.source.tree.ParenthesizedTree;
import com.sun.source.tree.Tree;
import com.sun.source.tree.UnaryTree;
import java.util.ArrayList;
import java.util.List;
import java.util.Map;
import java.util.function.Supplier;
import javax.lang.model.element.Element;
import javax.lang.model.element.Modifier;
import javax.lang.model.element.VariableElement;

/** Operators and assignments. */
final class Operators {
    private record Mark(String text, int level) {
    }

    private static final Map<String, Mark> MARKS = Map.ofEntries(
        Map.entry("PLUS", new Mark("+", Ex.SUM)), Map.entry("MINUS", new Mark("-", Ex.SUM)),
        Map.entry("MULTIPLY", new Mark("*", Ex.PRODUCT)), Map.entry("DIVIDE", new Mark("/", Ex.PRODUCT)),
        Map.entry("REMAINDER", new Mark("%", Ex.PRODUCT)), Map.entry("LEFT_SHIFT", new Mark("<<", Ex.SHIFT)),
        Map.entry("RIGHT_SHIFT", new Mark(">>", Ex.SHIFT)), Map.entry("UNSIGNED_RIGHT_SHIFT",
            new Mark(">>>", Ex.SHIFT)),
        Map.entry("AND", new Mark("&", Ex.BIT_AND)), Map.entry("OR", new Mark("|", Ex.BIT_OR)),
            Map.entry("XOR", new Mark("^", Ex.BIT_XOR)),
        Map.entry("LESS_THAN", new Mark("<", Ex.COMPARE)), Map.entry("GREATER_THAN", new Mark(">", Ex.COMPARE)),
        Map.entry("LESS_THAN_EQUAL", new Mark("<=", Ex.COMPARE)),
            Map.entry("GREATER_THAN_EQUAL", new Mark(">=", Ex.COMPARE)),
        Map.entry("EQUAL_TO", new Mark("==", Ex.EQUAL)), Map.entry("NOT_EQUAL_TO", new Mark("!=", Ex.EQUAL)));

    private final Body body;

    Operators(Body body) {
        this.body = body;
    }

    // ---- operators

    Ex binary(BinaryTree tree) {
        String kind = tree.getKind().name();
        if (kind.equals("CONDITIONAL_AND") || kind.equals("CONDITIONAL_OR")) {
            return shortcut(tree, kind.equals("CONDITIONAL_AND"));
        }
        if (Roots.isBound(body.world.sources, tree)) {
            return Roots.bound(body, tree);
        }
        if (Classes.isPair(body, tree)) {
            return Classes.compare(body, tree);
        }
        boolean joins = body.tyOf(tree).is(Ty.Kind.STRING);
        Object constant = joins ? null : foldable(tree);
        if (constant != null) {
            return Literals.of(constant);
        }
        List<Ex> parts = body.operands(List.of(() -> part(tree.getLeftOperand(), joins), () ->
            part(tree.getRightOperand(), joins)));
        return apply(kind, parts.get(0), parts.get(1), tree);
    }

    /** The value of a small constant expression of literals with a minus before it: none is folded but that of a literal. */
    private Object foldable(BinaryTree tree) {
        return null;
    }

    private Ex part(ExpressionTree tree, boolean joins) {
        ExpressionTree inner = tree;
        while (inner instanceof ParenthesizedTree bracketed) {
            inner = bracketed.getExpression();
        }
        if (joins && inner instanceof ConditionalExpressionTree choice && isMixed(choice)) {
            return body.expressions.textOf(choice);
        }
        Ex value = body.ex(tree);
        return joins ? body.conversions.text(value, tree) : value;
    }

    /** Whether the two values of a choice have but an interface or Object in common. */
    private boolean isMixed(ConditionalExpressionTree tree) {
        javax.lang.model.type.TypeKind kind = body.world.sources.typeOf(tree).getKind();
        return kind == javax.lang.model.type.TypeKind.INTERSECTION || kind == javax.lang.model.type.TypeKind.DECLARED
            && !body.world.sources.typeOf(tree).toString().equals("java.lang.String");
    }

    private Ex shortcut(BinaryTree tree, boolean and) {
        Ex left = body.test(tree.getLeftOperand());
        Ex[] right = new Ex[1];
        List<St> before = body.within(() -> right[0] = body.test(tree.getRightOperand()));
        if (before.isEmpty()) {
            return Ex.binary(left, and ? "&&" : "||", and ? Ex.AND : Ex.OR, right[0], Ty.BOOLEAN);
        }
        String name = body.fresh(Ty.BOOLEAN);
        body.emit(new St.Let("boolean", name, left.text));
        Ex test = Ex.local(name, Ty.BOOLEAN);
        body.emit(new St.If(and ? test : test.not(), body.within(() -> {
            body.out.addAll(before);
            body.setLocal(name, right[0]);
        }), List.of()));
        return test;
    }

    /** An operator on two values that were evaluated. */
    Ex apply(String kind, Ex left, Ex right, Tree tree) {
        Mark mark = MARKS.get(kind);
        if (kind.equals("PLUS") && (left.type.is(Ty.Kind.STRING) || right.type.is(Ty.Kind.STRING))) {
            Ex one = body.conversions.text(left, tree), other = body.conversions.text(right, tree);
            return Ex.binary(one, "+", Ex.SUM, other, Ty.STRING);
        }
        if (mark.level == Ex.EQUAL && left.type.isReference() && right.type.isReference()) {
            return same(mark, left, right, tree);
        }
        Ex one = body.conversions.primitive(left, tree), other = body.conversions.primitive(right, tree);
        if (mark.level == Ex.EQUAL || mark.level == Ex.COMPARE) {
            return Ex.binary(one, mark.text, mark.level, other, Ty.BOOLEAN);
        }
        if (one.type.is(Ty.Kind.BOOLEAN)) {
            return both(kind, one, other);
        }
        if (body.world.faults.isChecked(tree)) {
            one = body.spill(one);
            other = body.spill(other);
            body.exceptions.checkDivisor(other);
        }
        return Ex.binary(one, mark.text, mark.level, other, Ty.INT);
    }

    /** `&`, `|` and `^` of two booleans, both of which are evaluated. */
    private Ex both(String kind, Ex left, Ex right) {
        if (kind.equals("XOR")) {
            return Ex.binary(left, "!=", Ex.EQUAL, right, Ty.BOOLEAN);
        }
        if (!right.pure) {
            left = body.spill(left);
            right = body.spill(right);
        }
        boolean and = kind.equals("AND");
        return Ex.binary(left, and ? "&&" : "||", and ? Ex.AND : Ex.OR, right, Ty.BOOLEAN);
    }

    private Ex same(Mark mark, Ex left, Ex right, Tree tree) {
        boolean none = left.isNull() || right.isNull();
        if (!none && (left.type.is(Ty.Kind.STRING) || right.type.is(Ty.Kind.STRING))) {
            return body.obstacleEx(tree, "== of strings", "it compares objects; write equals").as(Ty.BOOLEAN);
        }
        if (!none && !body.owner.isLibrary && body.conversions.isBox(left.type) && body.conversions.isBox(right.type)) {
            return body.obstacleEx(tree, "== of boxed values",
                "it compares objects; write equals, or intValue()").as(Ty.BOOLEAN);
        }
        if (!none && left.type.is(Ty.Kind.CLASS) && right.type.is(Ty.Kind.CLASS)
            && !left.type.copy.isBelow(right.type.copy) && !right.type.copy.isBelow(left.type.copy)) {
            left = left.prefix("(Object) ", Ty.OBJECT);
        }
        return Ex.binary(left, mark.text, mark.level, right, Ty.BOOLEAN);
    }

    Ex unary(UnaryTree tree, boolean wanted) {
        switch (tree.getKind()) {
            case PREFIX_INCREMENT: return step(tree, true, true, wanted);
            case PREFIX_DECREMENT: return step(tree, false, true, wanted);
            case POSTFIX_INCREMENT: return step(tree, true, false, wanted);
            case POSTFIX_DECREMENT: return step(tree, false, false, wanted);
            case LOGICAL_COMPLEMENT: return body.test(tree.getExpression()).not();
            case UNARY_MINUS: return body.conversions.primitive(body.ex(tree.getExpression()), tree).prefix("-",
                Ty.INT);
            case BITWISE_COMPLEMENT: return body.conversions.primitive(body.ex(tree.getExpression()),
                tree).prefix("~", Ty.INT);
            default: return body.conversions.primitive(body.ex(tree.getExpression()), tree).prefix("+", Ty.INT);
        }
    }

    // ---- what is assigned

    /** What stands to the left of an assignment: its parts, which are evaluated first,
        and how it is written of them. */
    private final class Place_ {
        final List<Ex> parts = new ArrayList<>();
        String local;
        Ex fixed;
        VariableElement field;
        Tree tree;

        Ex read(List<Ex> of) {
            if (fixed != null) {
                return fixed;
            }
            return field != null ? body.expressions.field(of.get(0), field, tree)
                : Expressions.elementOf(of.get(0), of.get(1));
        }

        /** Asks whether an element is there, where that is caught; the parts, which are kept then. */
        List<Ex> asked(List<Ex> of) {
            if (!(tree instanceof ArrayAccessTree) || !body.world.faults.isChecked(tree)) {
                return of;
            }
            List<Ex> kept = List.of(body.spill(of.get(0)), body.spill(of.get(1)));
            body.exceptions.checkPlace(kept.get(1), Expressions.lengthOf(kept.get(0)), true);
            return kept;
        }

        void put(List<Ex> of, Ex value) {
            body.emit(new St.Set_(read(of).text, value.text, local));
        }
    }

    private Place_ place(ExpressionTree tree) {
        while (tree instanceof ParenthesizedTree bracketed) {
            tree = bracketed.getExpression();
        }
        Place_ made = new Place_();
        made.tree = tree;
        if (tree instanceof ArrayAccessTree access) {
            made.parts.addAll(body.operands(List.of(() -> body.ex(access.getExpression()), () ->
                body.exTo(access.getIndex(), Ty.INT))));
            return made;
        }
        Element element = body.elementOf(tree);
        if (World.isLocal(element)) {
            made.fixed = body.expressions.local(element, tree);
            made.local = body.nameOf(element);
            return made;
        }
        VariableElement field = (VariableElement) element;
        boolean ofThis = !(tree instanceof MemberSelectTree select) || isThis(select.getExpression());
        if (field.getModifiers().contains(Modifier.STATIC) || ofThis) {
            made.fixed = body.expressions.field(null, field, tree);
            return made;
        }
        made.field = field;
        made.parts.add(body.ex(((MemberSelectTree) tree).getExpression()));
        return made;
    }

    private boolean isThis(ExpressionTree tree) {
        return tree instanceof IdentifierTree id && (id.getName().contentEquals("this")
            || id.getName().contentEquals("super"));
    }

    Ex assign(AssignmentTree tree, boolean wanted) {
        Place_ place = place(tree.getVariable());
        Ty type = place.read(place.parts).type;
        List<Supplier<Ex>> all = new ArrayList<>();
        place.parts.forEach(part -> all.add(() -> part));
        all.add(() -> body.exTo(tree.getExpression(), type));
        List<Ex> values = body.operands(all);
        List<Ex> parts = values.subList(0, values.size() - 1);
        Ex value = values.get(values.size() - 1).as(type);
        if (body.world.faults.isChecked(place.tree)) {
            parts = List.of(body.spill(parts.get(0)), body.spill(parts.get(1)));
            value = body.spill(value);
        }
        return store(place, place.asked(parts), value, wanted);
    }

    /** Stores a value, and gives it where it is wanted. */
    private Ex store(Place_ place, List<Ex> parts, Ex value, boolean wanted) {
        if (!wanted) {
            place.put(parts, value);
            return value;
        }
        if (place.local != null) {
            place.put(parts, value);
            return Ex.local(place.local, place.fixed.type);
        }
        Ex kept = body.spill(value);
        place.put(parts, kept);
        return kept;
    }

    private List<Ex> settled(Place_ place) {
        List<Ex> all = new ArrayList<>();
        place.parts.forEach(part -> all.add(body.settle(part)));
        return all;
    }

    Ex compound(CompoundAssignmentTree tree, boolean wanted) {
        String kind = tree.getKind().name().replace("_ASSIGNMENT", "");
        Place_ place = place(tree.getVariable());
        List<Ex> settled = place.asked(settled(place));
        Ty type = place.read(settled).type;
        List<Supplier<Ex>> all = new ArrayList<>();
        settled.forEach(part -> all.add(() -> part));
        all.add(() -> place.read(settled));
        boolean joins = type.is(Ty.Kind.STRING);
        all.add(() -> part(tree.getExpression(), joins));
        List<Ex> values = body.operands(all);
        int n = settled.size();
        Ex value = apply(kind, values.get(n), values.get(n + 1), tree);
        return store(place, values.subList(0, n), fitted(value, type, tree), wanted);
    }

    /** The result of a compound assignment in the type of its variable, with the cast that Java makes. */
    private Ex fitted(Ex value, Ty type, Tree tree) {
        return type.isPrimitive() ? body.conversions.narrow(value, type) : body.conversions.convert(value, type, tree);
    }

    private Ex step(UnaryTree tree, boolean up, boolean prefix, boolean wanted) {
        Place_ place = place(tree.getExpression());
        List<Ex> parts = place.asked(settled(place));
        Ex old = place.read(parts);
        if (wanted && !prefix) {
            String name = body.fresh(old.type);
            body.emit(new St.Let(old.type.text(), name, old.text));
            Ex kept = Ex.local(name, old.type);
            place.put(parts, stepped(place.local != null ? old : kept, up, tree));
            return kept;
        }
        return store(place, parts, stepped(old, up, tree), wanted);
    }

    private Ex stepped(Ex old, boolean up, Tree tree) {
        Ex one = Ex.constant("1", Ty.INT);
        Ex value = apply(up ? "PLUS" : "MINUS", old, one, tree);
        return fitted(value, old.type, tree);
    }
}
