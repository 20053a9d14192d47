import com.sun.source.tree.BinaryTree;
import com.sun.source.tree.ExpressionTree;
import com.sun.source.tree.MethodInvocationTree;
import com.sun.source.tree.ParenthesizedTree;
import com.sun.source.tree.Tree;
import com.sun.source.tree.TypeCastTree;
import java.util.List;
import java.util.function.Supplier;
import javax.lang.model.element.ExecutableElement;
import javax.lang.model.type.TypeKind;
import javax.lang.model.type.TypeMirror;

/** Roots and powers of whole numbers that need no fractions: `(int) Math.sqrt(n)`, `(int) Math.pow(a, b)` and
    `i <= Math.sqrt(n)`. */
final class Roots {
    private Roots() {
    }

    private static ExpressionTree bare(ExpressionTree tree) {
        ExpressionTree inner = tree;
        while (inner instanceof ParenthesizedTree bracketed) {
            inner = bracketed.getExpression();
        }
        return inner;
    }

    static MethodInvocationTree call(ExpressionTree tree) {
        return (MethodInvocationTree) bare(tree);
    }

    private static boolean isInt(Sources sources, Tree tree) {
        TypeMirror type = sources.typeOf(tree);
        TypeKind kind = type == null ? TypeKind.NONE : type.getKind();
        return kind == TypeKind.INT || kind == TypeKind.CHAR || kind == TypeKind.SHORT || kind == TypeKind.BYTE;
    }

    private static boolean isOfInts(Sources sources, ExpressionTree tree, String name) {
        return bare(tree) instanceof MethodInvocationTree call
            && sources.elementOf(call) instanceof ExecutableElement method
            && method.getEnclosingElement().toString().equals("java.lang.Math")
            && method.getSimpleName().contentEquals(name)
            && call.getArguments().stream().allMatch(one -> isInt(sources, one));
    }

    static boolean isWhole(Sources sources, TypeCastTree tree) {
        return sources.typeOf(tree) != null && sources.typeOf(tree).getKind() == TypeKind.INT
            && (isOfInts(sources, tree.getExpression(), "sqrt") || isOfInts(sources, tree.getExpression(), "pow"));
    }

    static boolean isBound(Sources sources, BinaryTree tree) {
        boolean left = tree.getKind() == Tree.Kind.LESS_THAN_EQUAL, right = tree.getKind() == Tree.Kind.GREATER_THAN_EQUAL;
        return left && isInt(sources, tree.getLeftOperand()) && isOfInts(sources, tree.getRightOperand(), "sqrt")
            || right && isInt(sources, tree.getRightOperand()) && isOfInts(sources, tree.getLeftOperand(), "sqrt");
    }

    /** The root of a bound, and what is compared with it. */
    static MethodInvocationTree root(BinaryTree tree) {
        boolean left = tree.getKind() == Tree.Kind.LESS_THAN_EQUAL;
        return call(left ? tree.getRightOperand() : tree.getLeftOperand());
    }

    static ExpressionTree value(BinaryTree tree) {
        return tree.getKind() == Tree.Kind.LESS_THAN_EQUAL ? tree.getLeftOperand() : tree.getRightOperand();
    }

    static Ex whole(Body body, TypeCastTree tree) {
        MethodInvocationTree call = call(tree.getExpression());
        boolean root = isOfInts(body.world.sources, tree.getExpression(), "sqrt");
        List<Supplier<Ex>> parts = call.getArguments().stream().map(one -> (Supplier<Ex>) () ->
            body.exTo(one, Ty.INT)).toList();
        return called(body, root ? "wholeRoot" : "wholePower", body.operands(parts), Ty.INT);
    }

    static Ex bound(Body body, BinaryTree tree) {
        ExpressionTree value = value(tree), square = root(tree).getArguments().get(0);
        boolean left = tree.getKind() == Tree.Kind.LESS_THAN_EQUAL;
        List<Ex> both = body.operands(List.of(() -> body.exTo(left ? value : square, Ty.INT),
            () -> body.exTo(left ? square : value, Ty.INT)));
        return called(body, "isWithinRoot", left ? both : List.of(both.get(1), both.get(0)), Ty.BOOLEAN);
    }

    private static Ex called(Body body, String name, List<Ex> values, Ty type) {
        Copy math = body.conversions.library("Math");
        String method = body.program.needNamed(math, name);
        return Ex.active(math.staticToken() + "." + method + Calls.joined(values), Ex.POST, type);
    }
}
