import com.sun.source.tree.ExpressionTree;
import com.sun.source.tree.IdentifierTree;
import com.sun.source.tree.LambdaExpressionTree;
import com.sun.source.tree.MemberReferenceTree;
import com.sun.source.tree.ParenthesizedTree;
import java.util.ArrayList;
import java.util.List;
import java.util.Map;
import javax.lang.model.element.Element;
import javax.lang.model.element.ExecutableElement;
import javax.lang.model.element.TypeElement;
import javax.lang.model.element.VariableElement;
import javax.lang.model.type.DeclaredType;
import javax.lang.model.type.TypeKind;

/** Parameters with a wildcard, as `List<? extends Shape>`: a method is written once for each copy of the class that is
    given for them. The types of these parameters follow those for the method's variables. */
final class Wilds {
    private Wilds() {
    }

    static boolean isWild(VariableElement one) {
        if (!(one.asType() instanceof DeclaredType type)) {
            return false;
        }
        String name = type.asElement().toString();
        boolean isFunction = name.startsWith("java.util.function.") || name.equals("java.util.Comparator")
            || name.equals("java.lang.Comparable");
        return !isFunction && type.getTypeArguments().stream().anyMatch(arg -> arg.getKind() == TypeKind.WILDCARD);
    }

    /** Puts the types for a method's variables and for its parameters with a wildcard into a map. */
    static void put(Map<Element, Ty> env, ExecutableElement method, List<Ty> given) {
        int variables = method.getTypeParameters().size(), k = 0;
        for (; k < variables && k < given.size(); k++) {
            env.put(method.getTypeParameters().get(k), given.get(k));
        }
        for (VariableElement one : method.getParameters()) {
            if (k < given.size() && isWild(one)) {
                env.put(one, given.get(k++));
            }
        }
    }

    /** The types for a call: those for the method's variables, and those of its arguments where one differs. */
    static List<Ty> with(Body body, ExecutableElement method, Map<Element, Ty> env, List<Ty> margs,
        List<? extends ExpressionTree> arguments) {
        List<Ty> all = new ArrayList<>(margs);
        boolean differs = false;
        for (int k = 0; k < method.getParameters().size(); k++) {
            VariableElement one = method.getParameters().get(k);
            if (isWild(one)) {
                Ty plain = body.world.ty(one.asType(), env);
                Ty given = k < arguments.size() ? given(body, arguments.get(k), one) : null;
                all.add(given == null ? plain : given);
                differs |= given != null && !given.same(plain);
            }
        }
        return differs ? all : margs;
    }

    /** The copy of the parameter's class that an argument is one of, or null. */
    private static Ty given(Body body, ExpressionTree argument, VariableElement one) {
        ExpressionTree tree = argument;
        while (tree instanceof ParenthesizedTree bracketed) {
            tree = bracketed.getExpression();
        }
        if (tree instanceof LambdaExpressionTree || tree instanceof MemberReferenceTree) {
            return null;
        }
        Element local = tree instanceof IdentifierTree ? body.elementOf(tree) : null;
        Ty type = local != null && body.localTypes.containsKey(local) ? body.localTypes.get(local)
            : local != null && body.env.containsKey(local) ? body.env.get(local) : body.tyOf(tree);
        return body.world.isApart(type) ? null : seen(type, one);
    }

    /** The copy of a variable's class that a value is one of, or null. */
    static Ty seen(Ty type, VariableElement one) {
        boolean isCopy = type.is(Ty.Kind.CLASS) && type.copy.element != null;
        Copy seen = isCopy ? type.copy.as((TypeElement) ((DeclaredType) one.asType()).asElement()) : null;
        return seen == null ? null : seen.ty;
    }
}
