import com.sun.source.tree.AssignmentTree;
import com.sun.source.tree.CompilationUnitTree;
import com.sun.source.tree.EnhancedForLoopTree;
import com.sun.source.tree.ExpressionTree;
import com.sun.source.tree.LiteralTree;
import com.sun.source.tree.NewClassTree;
import com.sun.source.tree.ParenthesizedTree;
import com.sun.source.tree.Tree;
import com.sun.source.tree.VariableTree;
import com.sun.source.util.TreeScanner;
import java.util.ArrayList;
import java.util.HashMap;
import java.util.HashSet;
import java.util.LinkedHashMap;
import java.util.LinkedHashSet;
import java.util.List;
import java.util.Map;
import java.util.Set;
import javax.lang.model.element.Element;
import javax.lang.model.element.ElementKind;
import javax.lang.model.element.TypeElement;
import javax.lang.model.type.DeclaredType;

/**
 * Containers with a class of their own: those of a field or a local into which nothing but new containers of the library
 * is put. What is put elsewhere as well is found while the text is written: there the types do not fit.
 */
final class Apart extends TreeScanner<Void, Void> {
    private static final Set<String> SHARED = Set.of("Comparator", "Objects", "Optional", "OptionalInt", "Random",
        "Collections", "Arrays");
    private final Sources sources;
    private final Map<Element, List<NewClassTree>> made = new LinkedHashMap<>();
    private final Set<Element> other = new HashSet<>(); // into which something else is put
    private final Map<Element, Ty> ofVariable = new LinkedHashMap<>();
    private final Map<Tree, Ty> ofCreation = new HashMap<>();
    private final Map<String, Element> named = new LinkedHashMap<>();

    /** None is apart. */
    Apart() {
        sources = null;
    }

    Apart(Sources sources) {
        this.sources = sources;
        for (CompilationUnitTree unit : sources.ownUnits()) {
            scan(unit, null);
        }
        made.forEach((variable, creations) -> {
            if (!other.contains(variable)) {
                String name = variable.getSimpleName().toString();
                for (int k = 2; named.containsKey(name); k++) {
                    name = variable.getSimpleName().toString() + k;
                }
                named.put(name, variable);
                Ty tag = Ty.tag(name);
                ofVariable.put(variable, tag);
                creations.forEach(one -> ofCreation.put(one, tag));
            }
        });
    }

    Ty of(Element variable) {
        return ofVariable.get(variable);
    }

    Ty of(Tree creation) {
        return ofCreation.get(creation);
    }

    int count() {
        return ofVariable.size();
    }

    /** Lets those share whose classes are named in what stands in the way; all, where there is none. */
    void share(List<String> told) {
        Set<String> found = new LinkedHashSet<>();
        named.keySet().forEach(name -> {
            if (told.stream().anyMatch(one -> one.matches("(?s).*_" + name + "\\b.*"))) {
                found.add(name);
            }
        });
        for (String name : found.isEmpty() ? List.copyOf(named.keySet()) : found) {
            Element variable = named.remove(name);
            ofVariable.remove(variable);
            made.get(variable).forEach(ofCreation::remove);
        }
    }

    /** Whether a class of the library is a container, or a part of one. */
    static boolean isContainer(TypeElement element) {
        String name = element.getQualifiedName().toString();
        boolean inside = name.startsWith("java.util.") && !name.startsWith("java.util.function.");
        return name.equals("java.lang.Iterable") || inside && !SHARED.contains(element.getSimpleName().toString())
            && !name.endsWith("Exception");
    }

    // ---- what is put where

    private boolean isCandidate(Element variable) {
        boolean plain = variable != null && (variable.getKind() == ElementKind.FIELD
            || variable.getKind() == ElementKind.LOCAL_VARIABLE);
        return plain && variable.asType() instanceof DeclaredType type && isContainer((TypeElement) type.asElement());
    }

    private void put(Element variable, ExpressionTree value) {
        while (value instanceof ParenthesizedTree bracketed) {
            value = bracketed.getExpression();
        }
        if (value == null || value instanceof LiteralTree || !isCandidate(variable)) {
            return;
        }
        boolean fits = value instanceof NewClassTree creation && creation.getClassBody() == null
            && sources.typeOf(value) instanceof DeclaredType type
            && sources.isLibrary(sources.unitOf.get((TypeElement) type.asElement()))
            && isContainer((TypeElement) type.asElement());
        if (fits) {
            made.computeIfAbsent(variable, one -> new ArrayList<>()).add((NewClassTree) value);
        } else {
            other.add(variable);
        }
    }

    @Override
    public Void visitVariable(VariableTree tree, Void nothing) {
        put(sources.elementOf(tree), tree.getInitializer());
        return super.visitVariable(tree, nothing);
    }

    @Override
    public Void visitAssignment(AssignmentTree tree, Void nothing) {
        put(sources.elementOf(tree.getVariable()), tree.getExpression());
        return super.visitAssignment(tree, nothing);
    }

    @Override
    public Void visitEnhancedForLoop(EnhancedForLoopTree tree, Void nothing) {
        other.add(sources.elementOf(tree.getVariable()));
        return super.visitEnhancedForLoop(tree, nothing);
    }
}
