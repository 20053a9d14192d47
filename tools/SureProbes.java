import com.sun.source.tree.CompilationUnitTree;
import com.sun.source.tree.ExpressionTree;
import com.sun.source.tree.IdentifierTree;
import com.sun.source.tree.MemberSelectTree;
import com.sun.source.tree.MethodInvocationTree;
import com.sun.source.tree.MethodTree;
import com.sun.source.tree.PrimitiveTypeTree;
import com.sun.source.tree.Tree;
import com.sun.source.tree.TypeCastTree;
import com.sun.source.util.JavacTask;
import com.sun.source.util.SourcePositions;
import com.sun.source.util.TreePath;
import com.sun.source.util.TreePathScanner;
import com.sun.source.util.Trees;
import java.nio.charset.StandardCharsets;
import java.nio.file.Files;
import java.nio.file.Path;
import java.util.ArrayList;
import java.util.List;
import java.util.TreeMap;
import javax.lang.model.element.Element;
import javax.lang.model.element.ElementKind;
import javax.lang.model.element.Modifier;
import javax.lang.model.element.TypeElement;
import javax.lang.model.type.TypeKind;
import javax.tools.ToolProvider;

/**
 * SureProbes FOLDER INTO NAME..: writes each program FOLDER/NAME.java again as INTO/NAME.java, with a probe at each cast,
 * at each receiver of a call, at each object whose field is used and at the entry of each body of an object, and its casts
 * and calls as INTO/NAME.spots, in the order of their places.
 */
public class SureProbes extends TreePathScanner<Void, Void> {
    private static final String PROBE = "Probe";
    private final CompilationUnitTree unit;
    private final Trees trees;
    private final SourcePositions positions;
    private final String text;
    private final TreeMap<Integer, List<String>> before = new TreeMap<>();
    private final TreeMap<Integer, List<String>> behind = new TreeMap<>();
    private final TreeMap<Long, String[]> casts = new TreeMap<>();
    private final TreeMap<Long, String[]> calls = new TreeMap<>();

    private SureProbes(CompilationUnitTree unit, Trees trees) throws Exception {
        this.unit = unit;
        this.trees = trees;
        this.positions = trees.getSourcePositions();
        this.text = unit.getSourceFile().getCharContent(true).toString();
    }

    public static void main(String[] words) throws Exception {
        var compiler = ToolProvider.getSystemJavaCompiler();
        Path into = Path.of(words[1]);
        for (int k = 2; k < words.length; k++) {
            var files = compiler.getStandardFileManager(null, null, StandardCharsets.UTF_8);
            var given = files.getJavaFileObjects(Path.of(words[0], words[k] + ".java"));
            var task = (JavacTask) compiler.getTask(null, files, null, List.of("-proc:none", "-nowarn"), null, given);
            CompilationUnitTree unit = task.parse().iterator().next();
            task.analyze();
            SureProbes probes = new SureProbes(unit, Trees.instance(task));
            probes.scan(unit, null);
            Files.writeString(into.resolve(words[k] + ".java"), probes.written());
            Files.writeString(into.resolve(words[k] + ".spots"), probes.spots());
        }
    }

    // ---- what is written

    private int start(Tree tree) {
        return (int) positions.getStartPosition(unit, tree);
    }

    private int end(Tree tree) {
        return (int) positions.getEndPosition(unit, tree);
    }

    /** Puts a call of a probe around the text of an expression; one that stands within it is put within. */
    private void around(Tree tree, String front, String back) {
        before.computeIfAbsent(start(tree), at -> new ArrayList<>()).add(front);
        behind.computeIfAbsent(end(tree), at -> new ArrayList<>()).add(0, back);
    }

    /** Puts a text at a place. */
    private void at(int place, String put) {
        before.computeIfAbsent(place, at -> new ArrayList<>()).add(put);
    }

    private String written() {
        StringBuilder out = new StringBuilder();
        for (int k = 0; k <= text.length(); k++) {
            behind.getOrDefault(k, List.of()).forEach(out::append);
            before.getOrDefault(k, List.of()).forEach(out::append);
            if (k < text.length()) {
                out.append(text.charAt(k));
            }
        }
        return out.toString();
    }

    private String spots() {
        StringBuilder out = new StringBuilder();
        casts.forEach((place, it) -> out.append("cast ").append(String.join(" ", it)).append("\n"));
        calls.forEach((place, it) -> out.append("call ").append(String.join(" ", it)).append("\n"));
        return out.toString();
    }

    private String line(long place) {
        return "" + unit.getLineMap().getLineNumber(place);
    }

    // ---- where probes stand

    private Element element(Tree tree) {
        return trees.getElement(new TreePath(getCurrentPath(), tree));
    }

    private static boolean isOwn(Element element) {
        Element holder = element.getEnclosingElement();
        return holder instanceof TypeElement && !((TypeElement) holder).getQualifiedName().toString().startsWith("java.");
    }

    private static boolean isOfObject(Element element, ElementKind kind) {
        return element != null && element.getKind() == kind && !element.getModifiers().contains(Modifier.STATIC) && isOwn(element);
    }

    private boolean isArray(Tree tree) {
        return trees.getTypeMirror(new TreePath(getCurrentPath(), tree)).getKind() == TypeKind.ARRAY;
    }

    private static boolean isNamed(Tree tree, String name) {
        return tree instanceof IdentifierTree && ((IdentifierTree) tree).getName().contentEquals(name);
    }

    @Override
    public Void visitTypeCast(TypeCastTree it, Void nothing) {
        if (!(it.getType() instanceof PrimitiveTypeTree)) {
            String key = "\"" + start(it) + "\"";
            String name = it.getType().toString();
            casts.put((long) start(it), new String[] {name, line(start(it)), "" + start(it)});
            around(it.getExpression(), PROBE + ".cast(" + key + ", " + name + ".class, ", ")");
        }
        return super.visitTypeCast(it, nothing);
    }

    @Override
    public Void visitMethodInvocation(MethodInvocationTree it, Void nothing) {
        ExpressionTree select = it.getMethodSelect();
        if (isOfObject(element(select), ElementKind.METHOD)) {
            if (select instanceof MemberSelectTree) {
                MemberSelectTree member = (MemberSelectTree) select;
                int place = end(member) - member.getIdentifier().length();
                if (!isNamed(member.getExpression(), "super")) {
                    called(place, member.getIdentifier().toString());
                    around(member.getExpression(), receiver(place, member.getIdentifier().toString()), ")");
                }
            } else {
                String name = select.toString();
                called(start(select), name);
                at(start(select), receiver(start(select), name) + "this).");
            }
        }
        return super.visitMethodInvocation(it, nothing);
    }

    private void called(int place, String name) {
        calls.put((long) place, new String[] {name, line(place), "" + place});
    }

    private static String receiver(int place, String name) {
        return PROBE + ".receiver(\"" + place + "\", \"" + name + "\", ";
    }

    private static String used(Element field) {
        return PROBE + ".used(\"" + field.getEnclosingElement().getSimpleName() + "." + field.getSimpleName() + "\", ";
    }

    @Override
    public Void visitMemberSelect(MemberSelectTree it, Void nothing) {
        Element field = trees.getElement(getCurrentPath());
        if (isOfObject(field, ElementKind.FIELD) && !isArray(it.getExpression())) {
            around(it.getExpression(), used(field), ")");
        }
        return super.visitMemberSelect(it, nothing);
    }

    @Override
    public Void visitIdentifier(IdentifierTree it, Void nothing) {
        Element field = trees.getElement(getCurrentPath());
        if (isOfObject(field, ElementKind.FIELD) && !it.getName().contentEquals("this") && !it.getName().contentEquals("super")) {
            at(start(it), used(field) + "this).");
        }
        return super.visitIdentifier(it, nothing);
    }

    @Override
    public Void visitMethod(MethodTree it, Void nothing) {
        Element method = trees.getElement(getCurrentPath());
        if (isOfObject(method, ElementKind.METHOD) && it.getBody() != null) {
            String name = method.getEnclosingElement().getSimpleName() + "." + method.getSimpleName();
            at(start(it.getBody()) + 1, " " + PROBE + ".entered(\"" + name + "\");");
        }
        return super.visitMethod(it, nothing);
    }
}
