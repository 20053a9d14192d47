import com.sun.source.tree.BinaryTree;
import com.sun.source.tree.ExpressionTree;
import com.sun.source.tree.IdentifierTree;
import com.sun.source.tree.MemberSelectTree;
import com.sun.source.tree.MethodInvocationTree;
import com.sun.source.tree.ParenthesizedTree;
import com.sun.source.tree.Tree;
import java.util.List;

/** What is asked of an object's class: whether it is that of another, and its name. */
final class Classes {
    private Classes() {
    }

    private static ExpressionTree bare(ExpressionTree tree) {
        return tree instanceof ParenthesizedTree bracketed ? bare(bracketed.getExpression()) : tree;
    }

    private static boolean isGetClass(ExpressionTree tree) {
        String text = bare(tree) instanceof MethodInvocationTree call ? call.getMethodSelect().toString() : "";
        return text.equals("getClass") || text.endsWith(".getClass");
    }

    static boolean isPair(Body body, BinaryTree tree) {
        boolean compares = tree.getKind() == Tree.Kind.EQUAL_TO || tree.getKind() == Tree.Kind.NOT_EQUAL_TO;
        return compares && isGetClass(tree.getLeftOperand()) && isGetClass(tree.getRightOperand());
    }

    private static Ex of(Body body, ExpressionTree tree) {
        ExpressionTree select = ((MethodInvocationTree) bare(tree)).getMethodSelect();
        return select instanceof MemberSelectTree member && !(member.getExpression() instanceof IdentifierTree id
            && id.getName().contentEquals("this"))
            ? body.ex(member.getExpression()) : body.thisObject();
    }

    static Ex compare(Body body, BinaryTree tree) {
        List<Ex> both = body.operands(List.of(() -> of(body, tree.getLeftOperand()), () ->
            of(body, tree.getRightOperand())));
        Ex left = body.program.objects.nameOf(body, both.get(0), "className");
        Ex right = body.program.objects.nameOf(body, both.get(1), "className");
        Ex same = Ex.active(left.text + ".equals(" + right.text + ")", Ex.POST, Ty.BOOLEAN);
        return tree.getKind() == Tree.Kind.EQUAL_TO ? same : same.not();
    }

    /** `x.getClass().getSimpleName()` or `getName()`, or null. */
    static Ex name(Body body, MethodInvocationTree tree) {
        if (!(tree.getMethodSelect() instanceof MemberSelectTree select) || !isGetClass(select.getExpression())) {
            return null;
        }
        String name = select.getIdentifier().toString();
        String asked = name.equals("getSimpleName") ? "simpleName" : name.equals("getName") ? "className" : null;
        return asked == null ? null : body.program.objects.nameOf(body, of(body, select.getExpression()), asked);
    }
}
