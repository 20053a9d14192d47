import com.sun.source.tree.BlockTree;
import com.sun.source.tree.ClassTree;
import com.sun.source.tree.CompilationUnitTree;
import com.sun.source.tree.LambdaExpressionTree;
import com.sun.source.tree.MemberReferenceTree;
import com.sun.source.tree.MethodInvocationTree;
import com.sun.source.tree.MethodTree;
import com.sun.source.tree.NewClassTree;
import com.sun.source.tree.ThrowTree;
import com.sun.source.tree.Tree;
import com.sun.source.util.TreeScanner;
import java.util.HashMap;
import java.util.HashSet;
import java.util.Map;
import java.util.Set;
import javax.lang.model.element.Element;
import javax.lang.model.element.ElementKind;
import javax.lang.model.element.ExecutableElement;
import javax.lang.model.element.Modifier;
import javax.lang.model.element.TypeElement;
import javax.lang.model.type.DeclaredType;
import javax.lang.model.type.TypeMirror;
import javax.lang.model.util.ElementFilter;

/** Which methods may end in a throw: those that have one, and those that call such a method or one that it overrides.
    What a lambda does is done by the method of its interface, and what a first value does by the constructors. */
final class Throwing {
    private final Sources sources;
    private final MethodNames names;
    private final Faults faults;
    private final Set<ExecutableElement> throwing = new HashSet<>();
    private final Map<ExecutableElement, Set<ExecutableElement>> calls = new HashMap<>();
    private final Map<ExecutableElement, Boolean> answers = new HashMap<>();

    Throwing(Sources sources, MethodNames names, Faults faults) {
        this.sources = sources;
        this.names = names;
        this.faults = faults;
        for (CompilationUnitTree unit : sources.units) {
            String holder = "" + unit.getPackageName();
            if (sources.hasStreams || !holder.equals("java.util.stream")) {
                new Found().scan(unit, Set.of());
            }
        }
        boolean grew = true;
        while (grew) {
            grew = false;
            answers.clear();
            for (Map.Entry<ExecutableElement, Set<ExecutableElement>> one : calls.entrySet()) {
                if (!throwing.contains(one.getKey()) && one.getValue().stream().anyMatch(this::mayThrow)) {
                    throwing.add(one.getKey());
                    grew = true;
                }
            }
        }
        answers.clear();
    }

    /** The method itself, or one of the same slot. */
    boolean mayThrow(ExecutableElement method) {
        return answers.computeIfAbsent(method, one -> throwing.contains(one) || isNaming(one)
            || throwing.stream().anyMatch(other -> !other.getSimpleName().contentEquals("<init>")
                && names.same(one, other)));
    }

    /** `valueOf` of an enum, which throws where no constant has the name. */
    private static boolean isNaming(ExecutableElement method) {
        return method.getEnclosingElement().getKind() == ElementKind.ENUM
            && method.toString().equals("valueOf(java.lang.String)");
    }

    /** The one abstract method of an interface that a lambda stands for, or null. */
    private static ExecutableElement functional(TypeMirror type) {
        if (!(type instanceof DeclaredType declared) || !declared.asElement().getKind().isInterface()) {
            return null;
        }
        TypeElement face = (TypeElement) declared.asElement();
        for (ExecutableElement method : ElementFilter.methodsIn(face.getEnclosedElements())) {
            String text = method.toString();
            boolean ofObject = text.equals("equals(java.lang.Object)") || text.equals("hashCode()")
                || text.equals("toString()");
            if (method.getModifiers().contains(Modifier.ABSTRACT) && !ofObject) {
                return method;
            }
        }
        for (TypeMirror up : face.getInterfaces()) {
            ExecutableElement found = functional(up);
            if (found != null) {
                return found;
            }
        }
        return null;
    }

    /** Finds the throws and the calls; what is given is whose they are. */
    private final class Found extends TreeScanner<Void, Set<ExecutableElement>> {
        private void add(Tree tree, Set<ExecutableElement> owners) {
            if (sources.elementOf(tree) instanceof ExecutableElement called) {
                owners.forEach(owner -> calls.computeIfAbsent(owner, key -> new HashSet<>()).add(called));
            }
        }

        @Override
        public Void scan(Tree tree, Set<ExecutableElement> owners) {
            if (faults.isChecked(tree)) {
                throwing.addAll(owners);
            }
            return super.scan(tree, owners);
        }

        @Override
        public Void visitClass(ClassTree tree, Set<ExecutableElement> owners) {
            TypeElement element = sources.localOf.get(tree);
            Set<ExecutableElement> inside = element == null ? owners
                : new HashSet<>(ElementFilter.constructorsIn(element.getEnclosedElements()));
            for (Tree member : tree.getMembers()) {
                boolean isStatic = member instanceof BlockTree block && block.isStatic();
                scan(member, isStatic ? Set.of() : inside);
            }
            return null;
        }

        @Override
        public Void visitMethod(MethodTree tree, Set<ExecutableElement> owners) {
            Element element = sources.elementOf(tree);
            return super.visitMethod(tree, element instanceof ExecutableElement method ? Set.of(method) : owners);
        }

        @Override
        public Void visitLambdaExpression(LambdaExpressionTree tree, Set<ExecutableElement> owners) {
            ExecutableElement method = functional(sources.typeOf(tree));
            return scan(tree.getBody(), method == null ? owners : Set.of(method));
        }

        @Override
        public Void visitMemberReference(MemberReferenceTree tree, Set<ExecutableElement> owners) {
            ExecutableElement method = functional(sources.typeOf(tree));
            add(tree, method == null ? owners : Set.of(method));
            return super.visitMemberReference(tree, owners);
        }

        @Override
        public Void visitThrow(ThrowTree tree, Set<ExecutableElement> owners) {
            throwing.addAll(owners);
            return super.visitThrow(tree, owners);
        }

        @Override
        public Void visitMethodInvocation(MethodInvocationTree tree, Set<ExecutableElement> owners) {
            add(tree, owners);
            return super.visitMethodInvocation(tree, owners);
        }

        @Override
        public Void visitNewClass(NewClassTree tree, Set<ExecutableElement> owners) {
            add(tree, owners);
            return super.visitNewClass(tree, owners);
        }
    }
}
