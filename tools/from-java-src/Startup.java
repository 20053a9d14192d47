import com.sun.source.tree.IdentifierTree;
import com.sun.source.tree.MemberSelectTree;
import com.sun.source.tree.MethodInvocationTree;
import com.sun.source.tree.NewClassTree;
import com.sun.source.tree.Tree;
import com.sun.source.util.TreeScanner;
import java.util.ArrayList;
import java.util.HashSet;
import java.util.LinkedHashSet;
import java.util.List;
import java.util.Set;
import javax.lang.model.element.Element;
import javax.lang.model.element.ExecutableElement;
import javax.lang.model.element.Modifier;
import javax.lang.model.element.TypeElement;
import javax.lang.model.element.VariableElement;

/** The first values of static fields, put at the beginning of `main`, those that others need first. */
final class Startup {
    private final Program program;
    private final Set<TypeElement> done = new LinkedHashSet<>();
    private final List<Copy> order = new ArrayList<>();

    Startup(Program program) {
        this.program = program;
    }

    void write() {
        visit(program.main.element);
        program.withStatics.forEach(copy -> visit(copy.element));
        List<St> calls = new ArrayList<>();
        for (Copy copy : order) {
            St one = new St.Do(copy.staticToken() + ".initStatics()");
            one.at = program.mainMethod.at;
            calls.add(one);
        }
        program.mainMethod.body.addAll(0, calls);
    }

    private void visit(TypeElement element) {
        if (!done.add(element)) {
            return;
        }
        List<Tree> statics = program.inits.statics(element);
        if (statics.isEmpty()) {
            return;
        }
        Set<Element> seen = new HashSet<>();
        statics.forEach(tree -> new Uses(seen).scan(tree, null));
        program.withStatics.stream().filter(copy -> copy.element.equals(element)).forEach(order::add);
    }

    /** Visits the classes that code uses, through the methods that it calls. */
    private final class Uses extends TreeScanner<Void, Void> {
        private final Set<Element> seen;

        Uses(Set<Element> seen) {
            this.seen = seen;
        }

        private void use(Element element) {
            if (element == null || !seen.add(element)) {
                return;
            }
            boolean first = element instanceof ExecutableElement || element instanceof VariableElement
                && element.getModifiers().contains(Modifier.STATIC);
            if (first && element.getEnclosingElement() instanceof TypeElement holder
                && program.withStatics.stream().anyMatch(copy -> copy.element.equals(holder))) {
                visit(holder);
            }
            if (element instanceof ExecutableElement && program.world.sources.treeOf.get(element) != null) {
                scan(program.world.sources.treeOf.get(element), null);
            }
        }

        @Override
        public Void visitIdentifier(IdentifierTree tree, Void nothing) {
            use(program.world.sources.elementOf(tree));
            return null;
        }

        @Override
        public Void visitMemberSelect(MemberSelectTree tree, Void nothing) {
            use(program.world.sources.elementOf(tree));
            return super.visitMemberSelect(tree, nothing);
        }

        @Override
        public Void visitMethodInvocation(MethodInvocationTree tree, Void nothing) {
            use(program.world.sources.elementOf(tree));
            return super.visitMethodInvocation(tree, nothing);
        }

        @Override
        public Void visitNewClass(NewClassTree tree, Void nothing) {
            use(program.world.sources.elementOf(tree));
            return super.visitNewClass(tree, nothing);
        }
    }
}
