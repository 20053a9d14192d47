import com.sun.source.tree.ClassTree;
import com.sun.source.tree.IdentifierTree;
import com.sun.source.tree.MemberSelectTree;
import com.sun.source.tree.NewClassTree;
import com.sun.source.tree.Tree;
import com.sun.source.tree.VariableTree;
import com.sun.source.util.TreeScanner;
import java.util.ArrayDeque;
import java.util.Deque;
import java.util.HashMap;
import java.util.HashSet;
import java.util.LinkedHashSet;
import java.util.Map;
import java.util.Set;
import javax.lang.model.element.Element;
import javax.lang.model.element.ElementKind;
import javax.lang.model.element.Modifier;
import javax.lang.model.element.NestingKind;
import javax.lang.model.element.TypeElement;
import javax.lang.model.element.VariableElement;

/** What a class or a lambda takes from around it: locals, and the object. */
final class Captures {
    private final World world;
    private final Map<Tree, Found> found = new HashMap<>();

    static final class Found {
        final Set<Element> locals = new LinkedHashSet<>();
        boolean object;
    }

    Captures(World world) {
        this.world = world;
    }

    static String name(Element local) {
        String name = local.getSimpleName().toString();
        return "captured" + Character.toUpperCase(name.charAt(0)) + name.substring(1);
    }

    Found of(Tree tree) {
        Found known = found.get(tree);
        if (known == null) {
            known = new Found();
            found.put(tree, known);
            new Scan(known).scan(tree, null);
        }
        return known;
    }

    private final class Scan extends TreeScanner<Void, Void> {
        private final Found made;
        private final Set<Element> inside = new HashSet<>();
        private final Deque<TypeElement> classes = new ArrayDeque<>();

        Scan(Found made) {
            this.made = made;
        }

        @Override
        public Void visitClass(ClassTree tree, Void nothing) {
            TypeElement element = world.sources.localOf.get(tree);
            classes.push(element);
            if (tree.getExtendsClause() != null || element.getNestingKind() == NestingKind.ANONYMOUS) {
                uses(element.getSuperclass() instanceof javax.lang.model.type.DeclaredType above
                    ? (TypeElement) above.asElement() : null);
            }
            super.visitClass(tree, nothing);
            classes.pop();
            return null;
        }

        @Override
        public Void visitVariable(VariableTree tree, Void nothing) {
            inside.add(world.sources.elementOf(tree));
            return super.visitVariable(tree, nothing);
        }

        @Override
        public Void visitIdentifier(IdentifierTree tree, Void nothing) {
            Element element = world.sources.elementOf(tree);
            String name = tree.getName().toString();
            if (name.equals("this") || name.equals("super")) {
                made.object |= classes.isEmpty();
            } else if (World.isLocal(element)) {
                local(element);
            } else if (element != null && (element.getKind() == ElementKind.FIELD
                || element.getKind() == ElementKind.METHOD)) {
                member(element);
            }
            return null;
        }

        private void local(Element element) {
            if (!inside.contains(element) && ((VariableElement) element).getConstantValue() == null) {
                made.locals.add(element);
            }
        }

        private void member(Element element) {
            boolean own = element.getModifiers().contains(Modifier.STATIC)
                || element.getEnclosingElement().toString().equals("java.lang.Object");
            made.object |= !own && !isOfInside((TypeElement) element.getEnclosingElement());
        }

        private boolean isOfInside(TypeElement holder) {
            return classes.stream().anyMatch(one ->
                world.sources.types.isSubtype(world.sources.types.erasure(one.asType()),
                world.sources.types.erasure(holder.asType())));
        }

        @Override
        public Void visitMemberSelect(MemberSelectTree tree, Void nothing) {
            if (tree.getIdentifier().contentEquals("this")
                && world.sources.elementOf(tree.getExpression()) instanceof TypeElement outer) {
                made.object |= !classes.contains(outer);
                return null;
            }
            return super.visitMemberSelect(tree, nothing);
        }

        @Override
        public Void visitNewClass(NewClassTree tree, Void nothing) {
            if (tree.getClassBody() == null && tree.getEnclosingExpression() == null
                && world.sources.elementOf(tree) != null
                    && world.sources.elementOf(tree).getEnclosingElement() instanceof TypeElement made) {
                uses(made);
            }
            return super.visitNewClass(tree, nothing);
        }

        /** An object of a class is made, or a class stands below it: what that class takes is needed too. */
        private void uses(TypeElement element) {
            if (element == null || !world.isInner(element)
                || !(world.sources.treeOf.get(element) instanceof ClassTree tree)) {
                return;
            }
            Found of = Captures.this.of(tree);
            of.locals.stream().filter(one -> !inside.contains(one)).forEach(made.locals::add);
            boolean member = element.getNestingKind() == NestingKind.MEMBER;
            boolean given = member && isOfInside((TypeElement) element.getEnclosingElement());
            boolean local = !member && classes.contains(element);
            made.object |= of.object && !given && !local;
        }
    }
}
