import com.sun.source.tree.BinaryTree;
import com.sun.source.tree.CompilationUnitTree;
import com.sun.source.tree.IdentifierTree;
import com.sun.source.tree.LiteralTree;
import com.sun.source.tree.MethodInvocationTree;
import com.sun.source.tree.MethodTree;
import com.sun.source.tree.NewClassTree;
import com.sun.source.tree.Tree;
import com.sun.source.tree.TypeCastTree;
import com.sun.source.tree.VariableTree;
import com.sun.source.util.TreeScanner;
import javax.lang.model.element.Element;
import javax.lang.model.element.ExecutableElement;
import javax.lang.model.element.TypeElement;
import javax.lang.model.type.ArrayType;
import javax.lang.model.type.TypeKind;
import javax.lang.model.type.TypeMirror;

/** Numbers that are not brought in, long, those with a fraction and random ones without a seed: told where they stand. */
final class Numbers extends TreeScanner<Void, Void> {
    private static final String WHOLE = "there are no numbers with a fraction; count in whole parts, such as cents, "
        + "in an int";
    private static final String SEED = "each run would have other numbers; give a seed, as in new Random(42)";
    private final Sources sources;
    private final Obstacles obstacles;
    private CompilationUnitTree unit;
    private boolean told;

    private Numbers(Sources sources, Obstacles obstacles) {
        this.sources = sources;
        this.obstacles = obstacles;
    }

    /** Tells them all; whether there are long or fractions. */
    static boolean tell(Sources sources, Obstacles obstacles) {
        Numbers numbers = new Numbers(sources, obstacles);
        for (CompilationUnitTree one : sources.ownUnits()) {
            numbers.unit = one;
            numbers.scan(one, null);
        }
        return numbers.told;
    }

    private static TypeMirror element(TypeMirror type) {
        return type instanceof ArrayType array ? element(array.getComponentType()) : type;
    }

    private static boolean isMissing(TypeMirror type) {
        TypeKind kind = type == null ? TypeKind.VOID : element(type).getKind();
        return kind == TypeKind.LONG || kind == TypeKind.FLOAT || kind == TypeKind.DOUBLE;
    }

    private void add(Tree tree, TypeMirror type, String what) {
        told = true;
        obstacles.add(sources.placeOf(unit, tree), element(type).toString(), what);
    }

    private static String advice(TypeMirror type, String name) {
        return element(type).getKind() == TypeKind.LONG
            ? "write int for " + name + ", where its values stay within -2147483648 and 2147483647" : WHOLE;
    }

    @Override
    public Void visitVariable(VariableTree tree, Void nothing) {
        Element element = sources.elementOf(tree);
        if (element != null && isMissing(element.asType())) {
            add(tree.getType() == null ? tree : tree.getType(), element.asType(),
                advice(element.asType(), tree.getName().toString()));
        }
        return super.visitVariable(tree, nothing);
    }

    @Override
    public Void visitIdentifier(IdentifierTree tree, Void nothing) {
        Element element = sources.elementOf(tree);
        String name = element instanceof TypeElement ? element.toString() : "";
        if (name.equals("java.lang.Long")) {
            told = true;
            obstacles.add(sources.placeOf(unit, tree), "long", "write Integer for Long, where the values fit an int");
        } else if (name.equals("java.lang.Double") || name.equals("java.lang.Float")) {
            told = true;
            obstacles.add(sources.placeOf(unit, tree), element.getSimpleName().toString().toLowerCase(), WHOLE);
        }
        return super.visitIdentifier(tree, nothing);
    }

    @Override
    public Void visitMethod(MethodTree tree, Void nothing) {
        if (sources.elementOf(tree) instanceof ExecutableElement method && isMissing(method.getReturnType())) {
            add(tree.getReturnType(), method.getReturnType(), advice(method.getReturnType(),
                "what " + tree.getName() + " returns"));
        }
        return super.visitMethod(tree, nothing);
    }

    /** The load of a hash table that it has anyway. */
    static boolean isLoad(Tree tree) {
        return tree instanceof LiteralTree literal && literal.getValue() instanceof Float load && load == 0.75f;
    }

    @Override
    public Void visitLiteral(LiteralTree tree, Void nothing) {
        if (tree.getValue() instanceof Long number) {
            boolean fits = number == (int) (long) number;
            add(tree, sources.typeOf(tree), fits ? "write " + number + " without the L" : "this does not fit an int");
        } else if (tree.getValue() instanceof Double || tree.getValue() instanceof Float) {
            add(tree, sources.typeOf(tree), WHOLE);
        }
        return null;
    }

    @Override
    public Void visitTypeCast(TypeCastTree tree, Void nothing) {
        TypeMirror type = sources.typeOf(tree);
        if (Roots.isWhole(sources, tree)) {
            return scan(Roots.call(tree.getExpression()).getArguments(), null);
        }
        if (isMissing(type)) {
            add(tree, type, element(type).getKind() == TypeKind.LONG ? "leave the cast out, where the values fit an int"
                : WHOLE);
        }
        return super.visitTypeCast(tree, nothing);
    }

    @Override
    public Void visitBinary(BinaryTree tree, Void nothing) {
        if (Roots.isBound(sources, tree)) {
            scan(Roots.value(tree), null);
            return scan(Roots.root(tree).getArguments(), null);
        }
        return super.visitBinary(tree, nothing);
    }

    @Override
    public Void visitMethodInvocation(MethodInvocationTree tree, Void nothing) {
        if (sources.elementOf(tree) instanceof ExecutableElement method) {
            if (method.getSimpleName().contentEquals("<init>") && takesLoad(method)) {
                return scan(tree.getArguments().stream().filter(one -> !isLoad(one)).toList(), null);
            }
            boolean own = sources.treeOf.get(method) != null && !sources.isLibrary(sources.unitOf.get(
                method.getEnclosingElement()));
            if (!own && isMissing(method.getReturnType())) {
                add(tree, method.getReturnType(), method.getSimpleName() + " gives a " + method.getReturnType()
                    + ", which is not brought in");
            }
            if (method.toString().startsWith("<T>shuffle(") && method.getParameters().size() == 1) {
                obstacles.add(sources.placeOf(unit, tree), "random numbers", "each run would have another order; "
                    + "write Collections.shuffle(.., new Random(42))");
            }
        }
        return super.visitMethodInvocation(tree, nothing);
    }

    @Override
    public Void visitNewClass(NewClassTree tree, Void nothing) {
        if (sources.elementOf(tree) instanceof ExecutableElement made && tree.getArguments().isEmpty()
            && made.getEnclosingElement().toString().equals("java.util.Random")) {
            obstacles.add(sources.placeOf(unit, tree), "random numbers", SEED);
        }
        if (sources.elementOf(tree) instanceof ExecutableElement made && takesLoad(made)) {
            scan(tree.getClassBody(), null);
            return scan(tree.getArguments().stream().filter(one -> !isLoad(one)).toList(), null);
        }
        return super.visitNewClass(tree, nothing);
    }

    /** Whether it is a constructor of a hash table with a load. */
    private boolean takesLoad(ExecutableElement made) {
        return made.getEnclosingElement().toString().startsWith("java.util.")
            && made.getParameters().stream().anyMatch(one -> one.asType().getKind() == TypeKind.FLOAT);
    }
}
