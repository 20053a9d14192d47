import com.sun.source.tree.ArrayAccessTree;
import com.sun.source.tree.BinaryTree;
import com.sun.source.tree.CatchTree;
import com.sun.source.tree.CompoundAssignmentTree;
import com.sun.source.tree.ExpressionTree;
import com.sun.source.tree.LiteralTree;
import com.sun.source.tree.MethodInvocationTree;
import com.sun.source.tree.NewArrayTree;
import com.sun.source.tree.Tree;
import com.sun.source.tree.TryTree;
import com.sun.source.tree.UnionTypeTree;
import com.sun.source.util.TreeScanner;
import java.util.EnumSet;
import java.util.HashSet;
import java.util.List;
import java.util.Set;
import javax.lang.model.element.ExecutableElement;

/** Faults of the run that a `catch` of the sources takes: where one of these exceptions is named, each place that may meet
    it asks before; where a class above is named, the places that stand within its `try`. */
final class Faults {
    private enum Kind { DIVISION, INDEX, CHARACTER, SIZE }

    private final Sources sources;
    private final Set<Tree> checked = new HashSet<>();

    Faults(Sources sources) {
        this.sources = sources;
        EnumSet<Kind> named = EnumSet.noneOf(Kind.class);
        sources.ownUnits().forEach(unit -> new TreeScanner<Void, Void>() {
            @Override
            public Void visitCatch(CatchTree tree, Void nothing) {
                types(tree).forEach(type -> {
                    switch (name(type)) {
                        case "ArithmeticException" -> named.add(Kind.DIVISION);
                        case "ArrayIndexOutOfBoundsException" -> named.add(Kind.INDEX);
                        case "StringIndexOutOfBoundsException" -> named.add(Kind.CHARACTER);
                        case "NegativeArraySizeException" -> named.add(Kind.SIZE);
                        default -> { }
                    }
                });
                return super.visitCatch(tree, nothing);
            }
        }.scan(unit, null));
        sources.ownUnits().forEach(unit -> new Marks().scan(unit, named));
    }

    private static List<? extends Tree> types(CatchTree tree) {
        Tree type = tree.getParameter().getType();
        return type instanceof UnionTypeTree union ? union.getTypeAlternatives() : List.of(type);
    }

    private static String name(Tree type) {
        String text = type.toString();
        return text.substring(text.lastIndexOf('.') + 1);
    }

    boolean isChecked(Tree tree) {
        return tree != null && checked.contains(tree);
    }

    /** Marks the places; what is given is what is asked there. */
    private final class Marks extends TreeScanner<Void, EnumSet<Kind>> {
        @Override
        public Void visitTry(TryTree tree, EnumSet<Kind> asked) {
            EnumSet<Kind> inside = EnumSet.copyOf(asked);
            for (CatchTree one : tree.getCatches()) {
                types(one).forEach(type -> {
                    switch (name(type)) {
                        case "RuntimeException", "Exception", "Throwable" -> inside.addAll(EnumSet.allOf(Kind.class));
                        case "IndexOutOfBoundsException" -> inside.addAll(EnumSet.of(Kind.INDEX, Kind.CHARACTER));
                        default -> { }
                    }
                });
            }
            scan(tree.getResources(), asked);
            scan(tree.getBlock(), inside);
            scan(tree.getCatches(), asked);
            return scan(tree.getFinallyBlock(), asked);
        }

        private void mark(Tree tree, Kind kind, EnumSet<Kind> asked) {
            if (asked.contains(kind)) {
                checked.add(tree);
            }
        }

        private boolean mayBeZero(ExpressionTree tree) {
            return !(tree instanceof LiteralTree literal) || Integer.valueOf(0).equals(literal.getValue());
        }

        @Override
        public Void visitBinary(BinaryTree tree, EnumSet<Kind> asked) {
            boolean divides = tree.getKind() == Tree.Kind.DIVIDE || tree.getKind() == Tree.Kind.REMAINDER;
            if (divides && mayBeZero(tree.getRightOperand())) {
                mark(tree, Kind.DIVISION, asked);
            }
            return super.visitBinary(tree, asked);
        }

        @Override
        public Void visitCompoundAssignment(CompoundAssignmentTree tree, EnumSet<Kind> asked) {
            boolean divides = tree.getKind() == Tree.Kind.DIVIDE_ASSIGNMENT
                || tree.getKind() == Tree.Kind.REMAINDER_ASSIGNMENT;
            if (divides && mayBeZero(tree.getExpression())) {
                mark(tree, Kind.DIVISION, asked);
            }
            return super.visitCompoundAssignment(tree, asked);
        }

        @Override
        public Void visitArrayAccess(ArrayAccessTree tree, EnumSet<Kind> asked) {
            mark(tree, Kind.INDEX, asked);
            return super.visitArrayAccess(tree, asked);
        }

        @Override
        public Void visitNewArray(NewArrayTree tree, EnumSet<Kind> asked) {
            if (tree.getDimensions().size() == 1 && !(tree.getDimensions().get(0) instanceof LiteralTree)) {
                mark(tree, Kind.SIZE, asked);
            }
            return super.visitNewArray(tree, asked);
        }

        @Override
        public Void visitMethodInvocation(MethodInvocationTree tree, EnumSet<Kind> asked) {
            boolean isString = sources.elementOf(tree) instanceof ExecutableElement method
                && method.toString().equals("charAt(int)")
                && method.getEnclosingElement().toString().equals("java.lang.String");
            if (isString) {
                mark(tree, Kind.CHARACTER, asked);
            }
            return super.visitMethodInvocation(tree, asked);
        }
    }
}
