import com.sun.source.tree.ExpressionTree;
import com.sun.source.tree.MemberSelectTree;
import com.sun.source.tree.MethodInvocationTree;
import com.sun.source.tree.Tree;
import com.sun.source.tree.BinaryTree;
import com.sun.source.tree.IdentifierTree;
import com.sun.source.tree.LiteralTree;
import com.sun.source.tree.ParenthesizedTree;
import java.util.ArrayList;
import java.util.List;
import java.util.function.Supplier;
import java.util.regex.Matcher;
import java.util.regex.Pattern;
import javax.lang.model.element.ExecutableElement;
import javax.lang.model.element.VariableElement;
import javax.lang.model.type.TypeKind;

/** String.valueOf and String.format: what is made of values is written out where the format is a constant. */
final class Formats {
    private static final int MARK = 0xE000; // of the first number that is joined to a format
    private static final Pattern PART = Pattern.compile(
        "%(?:([0-9]+)\\$)?([-,0+ (]*)([1-9][0-9]*|[\uE000-\uE0FF]|)(\\.[0-9]+)?([a-zA-Z%])");
    private final Body body;

    Formats(Body body) {
        this.body = body;
    }

    boolean isText(ExecutableElement method) {
        String name = method.getSimpleName().toString();
        boolean value = name.equals("valueOf") && method.getParameters().get(0).asType().getKind() != TypeKind.ARRAY;
        return value || name.equals("format") || name.equals("formatted");
    }

    Ex call(MethodInvocationTree tree, ExecutableElement method) {
        if (method.getSimpleName().contentEquals("valueOf")) {
            ExpressionTree value = tree.getArguments().get(0);
            return body.conversions.string(body.ex(value), value);
        }
        if (method.getSimpleName().contentEquals("formatted")) {
            List<ExpressionTree> all = new ArrayList<>(List.of(((MemberSelectTree) tree.getMethodSelect()).getExpression()));
            all.addAll(tree.getArguments());
            return format(all, tree);
        }
        return format(tree.getArguments(), tree);
    }

    /** A constant string, or null. */
    private String constant(ExpressionTree tree) {
        if (tree instanceof LiteralTree literal && literal.getValue() instanceof String text) {
            return text;
        }
        if (tree instanceof ParenthesizedTree bracketed) {
            return constant(bracketed.getExpression());
        }
        if (tree instanceof BinaryTree binary && binary.getKind() == Tree.Kind.PLUS) {
            String left = constant(binary.getLeftOperand()), right = constant(binary.getRightOperand());
            return left == null || right == null ? null : left + right;
        }
        boolean named = tree instanceof IdentifierTree || tree instanceof MemberSelectTree;
        return named && body.elementOf(tree) instanceof VariableElement field
            && field.getConstantValue() instanceof String text ? text : null;
    }

    /** The text of a format; in the place of each number that is joined to it stands a mark. */
    private String marked(ExpressionTree tree, List<ExpressionTree> numbers) {
        String text = constant(tree);
        if (text != null) {
            return text;
        }
        if (tree instanceof ParenthesizedTree bracketed) {
            return marked(bracketed.getExpression(), numbers);
        }
        if (tree instanceof BinaryTree binary && binary.getKind() == Tree.Kind.PLUS
            && body.tyOf(tree).is(Ty.Kind.STRING)) {
            String left = marked(binary.getLeftOperand(), numbers), right = marked(binary.getRightOperand(), numbers);
            return left == null || right == null ? null : left + right;
        }
        if (body.world.sources.typeOf(tree) != null && body.world.sources.typeOf(tree).getKind() == TypeKind.INT) {
            numbers.add(tree);
            return "" + (char) (MARK + numbers.size() - 1);
        }
        return null;
    }

    Ex format(List<? extends ExpressionTree> arguments, Tree tree) {
        List<ExpressionTree> joined = new ArrayList<>();
        String format = marked(arguments.get(0), joined);
        if (format == null) {
            return refused(tree, "the format is not a constant; join the parts by +");
        }
        List<Ex> numbers = new ArrayList<>();
        joined.forEach(one -> numbers.add(body.spill(body.exTo(one, Ty.INT))));
        List<Ex> kept = new ArrayList<>();
        if (format.contains("$")) {
            List<Supplier<Ex>> all = new ArrayList<>();
            arguments.subList(1, arguments.size()).forEach(one -> all.add(() -> body.ex(one)));
            body.operands(all).forEach(one -> kept.add(body.spill(one)));
        }
        List<Supplier<Ex>> parts = new ArrayList<>();
        Matcher found = PART.matcher(format);
        int from = 0, next = 1;
        while (found.find()) {
            literal(format.substring(from, found.start()), parts, numbers, tree);
            from = found.end();
            String kind = found.group(5);
            if (kind.equals("n") || kind.equals("%")) {
                parts.add(() -> Literals.string(kind.equals("n") ? "\n" : "%"));
                continue;
            }
            int at = found.group(1) == null ? next++ : Integer.parseInt(found.group(1));
            if (at >= arguments.size()) {
                return refused(tree, "it has fewer values than the format asks for");
            }
            ExpressionTree argument = arguments.get(at);
            String flags = found.group(2), precision = found.group(4);
            String width = !found.group(3).isEmpty() && found.group(3).charAt(0) >= MARK
                ? numbers.get(found.group(3).charAt(0) - MARK).text : found.group(3);
            parts.add(() -> part(argument, kept.isEmpty() ? body.ex(argument) : kept.get(at - 1), flags, width,
                precision, kind));
        }
        literal(format.substring(from), parts, numbers, tree);
        Ex all = null;
        for (Ex one : body.operands(parts)) {
            all = all == null ? one.type.is(Ty.Kind.STRING) ? one : body.conversions.string(one, tree)
                : Ex.binary(all, "+", Ex.SUM, one, Ty.STRING);
        }
        return all == null ? Literals.string("") : all;
    }

    private void literal(String text, List<Supplier<Ex>> parts, List<Ex> numbers, Tree tree) {
        if (text.contains("%")) {
            refused(tree, "a part of the format is not known; join the parts by +");
        }
        int from = 0;
        for (int k = 0; k < text.length(); k++) {
            int number = text.charAt(k) - MARK;
            if (number >= 0 && number < numbers.size()) {
                String before = text.substring(from, k);
                parts.add(() -> Literals.string(before));
                parts.add(() -> numbers.get(number));
                from = k + 1;
            }
        }
        String rest = text.substring(from);
        if (!rest.isEmpty() || parts.isEmpty()) {
            parts.add(() -> Literals.string(rest));
        }
    }

    private Ex refused(Tree tree, String advice) {
        return body.obstacleEx(tree, "format", advice).as(Ty.STRING);
    }

    private Ex part(ExpressionTree argument, Ex given, String flags, String width, String precision, String kind) {
        Ex value = given;
        boolean plain = !flags.contains(" ") && !flags.contains("(");
        if (!"dscbxXoSC".contains(kind) || precision != null && !kind.equals("s") || !plain
            || kind.matches("[xXo]") && flags.matches(".*[,+].*")) {
            return refused(argument, "of the formats there are %d, %s, %c, %b, %x and %n with a width");
        }
        Copy strings = body.world.staticCopy(body.world.sources.elements.getTypeElement("java.lang.String"));
        if (kind.equals("x") || kind.equals("X")) {
            String hex = body.program.needNamed(strings, "hexadecimal");
            value = Ex.active(strings.staticToken() + "." + hex + "("
                + body.conversions.primitive(value, argument).text + ", " + kind.equals("X") + ")", Ex.POST, Ty.STRING);
        }
        if (kind.equals("o")) {
            Copy integers = body.conversions.library("Integer");
            String octal = body.program.needNamed(integers, "toOctalString");
            value = Ex.active(integers.staticToken() + "." + octal + "("
                + body.conversions.primitive(value, argument).text + ")", Ex.POST, Ty.STRING);
        }
        if (kind.matches("[xXo]") && flags.contains("0")) {
            String zeros = body.program.needNamed(strings, "filled");
            return Ex.active(strings.staticToken() + "." + zeros + "(" + value.text + ", " + width + ")", Ex.POST,
                Ty.STRING);
        }
        if (kind.equals("d")) {
            value = body.conversions.primitive(value, argument);
            if (!flags.isEmpty() && !flags.equals("-")) {
                String number = body.program.needNamed(strings, "number");
                boolean zeros = flags.contains("0");
                value = Ex.active(strings.staticToken() + "." + number + "(" + value.text + ", "
                    + (zeros ? width : "0") + ", " + flags.contains(",") + ", "
                    + flags.contains("+") + ")", Ex.POST, Ty.STRING);
            }
        }
        if (kind.equalsIgnoreCase("c")) {
            value = body.conversions.narrow(body.conversions.primitive(value, argument), Ty.CHAR);
        }
        Ex text = body.conversions.text(value, argument);
        if (precision != null) {
            String cut = body.program.needNamed(strings, "cut");
            text = Ex.active(strings.staticToken() + "." + cut + "(" + body.conversions.string(text, argument).text
                + ", " + precision.substring(1) + ")", Ex.POST, Ty.STRING);
        }
        if (kind.equals("S") || kind.equals("C")) {
            String upper = body.program.needNamed(strings, "toUpperCase");
            text = Ex.active(strings.staticToken() + "." + upper + "(" + body.conversions.string(text, argument).text
                + ")", Ex.POST, Ty.STRING);
        }
        if (width.isEmpty()) {
            return text.type.is(Ty.Kind.STRING) ? text : body.conversions.string(text, argument);
        }
        String padded = body.program.needNamed(strings, "padded");
        return Ex.active(strings.staticToken() + "." + padded + "(" + body.conversions.string(text, argument).text
            + ", " + width + ", " + flags.contains("-") + ")",
            Ex.POST, Ty.STRING);
    }
}
