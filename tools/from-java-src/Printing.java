import com.sun.source.tree.ExpressionTree;
import com.sun.source.tree.MemberSelectTree;
import com.sun.source.tree.MethodInvocationTree;
import javax.lang.model.element.ExecutableElement;

/** System.out. */
final class Printing {
    private final Body body;

    Printing(Body body) {
        this.body = body;
    }

    Ex print(MethodInvocationTree tree, ExecutableElement method, MemberSelectTree select) {
        String name = method.getSimpleName().toString();
        String to = select.getExpression().toString();
        if (to.equals("System.err")) {
            leaveOut(tree, name);
        } else if (!to.equals("System.out") && !to.equals("out")) {
            body.obstacle(tree, to, "there is one output; write System.out");
        } else if (name.equals("println") && tree.getArguments().isEmpty()) {
            body.emit(new St.Do("System.out.println()"));
        } else if (name.equals("println") || name.equals("print")) {
            body.emit(new St.Do("System.out." + name + "(" + printed(tree.getArguments().get(0)).text + ")"));
        } else if (name.equals("printf") || name.equals("format")) {
            body.emit(new St.Do("System.out.print(" + new Formats(body).format(tree.getArguments(), tree).text + ")"));
        } else if (!name.equals("flush")) {
            body.obstacle(tree, "System.out." + name, "of System.out there are print, println and printf");
        }
        return new Ex("", Ex.POST, Ty.VOID, true, java.util.Set.of());
    }

    /** What goes to the error output is evaluated, and not printed: there is one output. */
    private void leaveOut(MethodInvocationTree tree, String name) {
        boolean formats = name.equals("printf") || name.equals("format");
        if (!tree.getArguments().isEmpty()) {
            Ex value = formats ? new Formats(body).format(tree.getArguments(), tree) : printed(tree.getArguments().get(0));
            if (!value.pure) {
                body.spill(value);
            }
        }
        body.program.leftOut(body.placeOf(tree), "System.err: there is one output, and this is not printed to it");
    }

    private Ex printed(ExpressionTree tree) {
        Ex value = body.ex(tree);
        if (value.type.is(Ty.Kind.ARRAY) && value.type.of.is(Ty.Kind.CHAR)) {
            return body.conversions.ofCharacters(value);
        }
        Ex text = body.conversions.text(value, tree);
        return text.type.is(Ty.Kind.BYTE) || text.type.is(Ty.Kind.SHORT) ? text.as(Ty.INT) : text;
    }
}
