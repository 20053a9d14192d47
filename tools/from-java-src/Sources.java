import com.sun.source.tree.ClassTree;
import com.sun.source.tree.CompilationUnitTree;
import com.sun.source.tree.MemberReferenceTree;
import com.sun.source.tree.MethodInvocationTree;
import com.sun.source.tree.MethodTree;
import com.sun.source.tree.Tree;
import com.sun.source.tree.TryTree;
import com.sun.source.tree.VariableTree;
import com.sun.source.util.JavacTask;
import com.sun.source.util.TreePath;
import com.sun.source.util.TreePathScanner;
import com.sun.source.util.Trees;
import java.io.File;
import java.io.IOException;
import java.nio.charset.StandardCharsets;
import java.nio.file.Path;
import java.util.ArrayList;
import java.util.HashMap;
import java.util.HashSet;
import java.util.LinkedHashMap;
import java.util.List;
import java.util.Map;
import java.util.Set;
import javax.lang.model.element.Element;
import javax.lang.model.element.TypeElement;
import javax.lang.model.type.TypeMirror;
import javax.lang.model.util.Elements;
import javax.lang.model.util.Types;
import javax.tools.Diagnostic;
import javax.tools.DiagnosticCollector;
import javax.tools.JavaCompiler;
import javax.tools.JavaFileObject;
import javax.tools.StandardJavaFileManager;
import javax.tools.ToolProvider;

/** The sources as the JDK's compiler parses and attributes them, with the library in place of the JDK's classes or without. */
final class Sources {
    final List<CompilationUnitTree> units = new ArrayList<>();
    final Map<Element, Tree> treeOf = new HashMap<>();
    final Map<Element, CompilationUnitTree> unitOf = new HashMap<>();
    final List<TypeElement> classes = new ArrayList<>(); // in the order of the text, local and anonymous ones too
    final Map<Tree, TypeElement> localOf = new LinkedHashMap<>();
    final Set<String> variableNames = new HashSet<>();
    final List<Diagnostic<? extends JavaFileObject>> errors = new ArrayList<>();
    boolean hasTry;
    boolean hasStreams;
    Trees trees;
    Elements elements;
    Types types;
    private final Set<String> libraryFiles = new HashSet<>();
    private final Map<String, String> shown = new HashMap<>(); // absolute path: as the user named it

    Sources(List<String> files, Path library) throws IOException {
        JavaCompiler compiler = ToolProvider.getSystemJavaCompiler();
        DiagnosticCollector<JavaFileObject> said = new DiagnosticCollector<>();
        StandardJavaFileManager manager = compiler.getStandardFileManager(said, null, StandardCharsets.UTF_8);
        List<File> all = new ArrayList<>();
        for (String file : files) {
            all.add(new File(file));
            shown.put(new File(file).getPath(), file);
        }
        List<String> options = new ArrayList<>(List.of("-proc:none", "-Xlint:none", "-Xmaxerrs", "1000"));
        if (library != null) {
            options.addAll(List.of("--patch-module", "java.base=" + library));
            try (var found = java.nio.file.Files.walk(library)) {
                found.filter(path -> path.toString().endsWith(".java")).sorted().forEach(path -> {
                    all.add(path.toFile());
                    libraryFiles.add(path.toFile().getPath());
                });
            }
        }
        JavacTask task = (JavacTask) compiler.getTask(null, manager, said, options, null,
            manager.getJavaFileObjectsFromFiles(all));
        for (CompilationUnitTree unit : task.parse()) {
            units.add(unit);
        }
        task.analyze();
        trees = Trees.instance(task);
        elements = task.getElements();
        types = task.getTypes();
        for (Diagnostic<? extends JavaFileObject> one : said.getDiagnostics()) {
            if (one.getKind() == Diagnostic.Kind.ERROR) {
                errors.add(one);
            }
        }
        units.forEach(unit -> new Collector(unit).scan(unit, null));
    }

    boolean isLibrary(CompilationUnitTree unit) {
        return unit != null && libraryFiles.contains(new File(unit.getSourceFile().getName()).getPath());
    }

    List<CompilationUnitTree> ownUnits() {
        return units.stream().filter(unit -> !isLibrary(unit)).toList();
    }

    Element elementOf(Tree tree) {
        return trees.getElement(new TreePath(new TreePath(units.get(0)), tree));
    }

    TypeMirror typeOf(Tree tree) {
        return trees.getTypeMirror(new TreePath(new TreePath(units.get(0)), tree));
    }

    Place placeOf(CompilationUnitTree unit, Tree tree) {
        long at = trees.getSourcePositions().getStartPosition(unit, tree);
        if (at < 0) {
            return new Place(nameOf(unit.getSourceFile()), 1, 1);
        }
        int line = (int) unit.getLineMap().getLineNumber(at);
        return new Place(nameOf(unit.getSourceFile()), line, (int) (at - unit.getLineMap().getStartPosition(line)) + 1);
    }

    String nameOf(JavaFileObject file) {
        return file == null ? "-" : shown.getOrDefault(file.getName(), file.getName());
    }

    /** Fills the maps of a unit. */
    private final class Collector extends TreePathScanner<Void, Void> {
        private final CompilationUnitTree unit;
        private final boolean own;

        Collector(CompilationUnitTree unit) {
            this.unit = unit;
            own = !isLibrary(unit);
        }

        private void put(Tree tree) {
            Element element = trees.getElement(getCurrentPath());
            if (element != null) {
                treeOf.put(element, tree);
                unitOf.put(element, unit);
            }
        }

        @Override
        public Void visitClass(ClassTree tree, Void nothing) {
            put(tree);
            if (trees.getElement(getCurrentPath()) instanceof TypeElement element) {
                classes.add(element);
                localOf.put(tree, element);
            }
            return super.visitClass(tree, nothing);
        }

        @Override
        public Void visitMethod(MethodTree tree, Void nothing) {
            put(tree);
            return super.visitMethod(tree, nothing);
        }

        @Override
        public Void visitVariable(VariableTree tree, Void nothing) {
            put(tree);
            if (own) {
                variableNames.add(tree.getName().toString());
            }
            return super.visitVariable(tree, nothing);
        }

        @Override
        public Void visitTry(TryTree tree, Void nothing) {
            hasTry |= own;
            return super.visitTry(tree, nothing);
        }

        @Override
        public Void visitMethodInvocation(MethodInvocationTree tree, Void nothing) {
            hasStreams |= own && ("" + trees.getTypeMirror(getCurrentPath())).startsWith("java.util.stream.");
            return super.visitMethodInvocation(tree, nothing);
        }

        @Override
        public Void visitMemberReference(MemberReferenceTree tree, Void nothing) {
            hasStreams |= own && tree.getName().contentEquals("stream");
            return super.visitMemberReference(tree, nothing);
        }
    }
}
