import java.io.IOException;
import java.io.PrintStream;
import java.nio.charset.StandardCharsets;
import java.nio.file.Files;
import java.nio.file.Path;
import java.util.ArrayList;
import java.util.List;
import java.util.Set;
import javax.lang.model.element.Element;
import javax.lang.model.element.ElementKind;
import javax.lang.model.element.ExecutableElement;
import javax.lang.model.element.Modifier;
import javax.lang.model.element.TypeElement;
import javax.tools.Diagnostic;
import javax.tools.JavaFileObject;

/** Brings everyday Java in: sources to one text of Kaba's language. The words are LIBRARY OUT MAP MAIN FILE.. */
public final class FromJava {
    private static final int REFUSED = 65, CANNOT_WRITE = 74;
    private final Obstacles obstacles = new Obstacles();

    private FromJava() {
    }

    public static void main(String[] words) throws IOException {
        PrintStream err = new PrintStream(System.err, true, StandardCharsets.UTF_8);
        List<String> files = new ArrayList<>(List.of(words).subList(4, words.length));
        Result result = bring(files, Path.of(words[0]), words[3]);
        err.print(result.told);
        if (result.text == null) {
            System.exit(REFUSED);
        }
        try {
            if (words[1].equals("-")) {
                System.out.write(result.text.getBytes(StandardCharsets.UTF_8));
                System.out.flush();
            } else {
                Files.writeString(Path.of(words[1]), result.text);
            }
            if (!words[2].equals("-")) {
                Files.writeString(Path.of(words[2]), result.map);
            }
        } catch (IOException fault) {
            err.println("from-java: cannot write " + fault.getMessage());
            System.exit(CANNOT_WRITE);
        }
    }

    /** What came of it: the text and the map, or null; and the lines for standard error. */
    static final class Result {
        String text;
        String map;
        String told = "";
    }

    static Result bring(List<String> files, Path library, String mainName) throws IOException {
        return new FromJava().brought(files, library, mainName);
    }

    private Result brought(List<String> files, Path library, String mainName) throws IOException {
        Result result = new Result();
        Sources sources = new Sources(files, library);
        if (!sources.errors.isEmpty()) {
            Sources plain = new Sources(files, null);
            if (!plain.errors.isEmpty()) {
                StringBuilder told = new StringBuilder();
                plain.errors.forEach(one -> told.append(line(plain, one)).append('\n'));
                result.told = told + "from-java: javac refuses the program\n";
                return result;
            }
        }
        for (Diagnostic<? extends JavaFileObject> one : sources.errors) {
            Place place = new Place(sources.nameOf(one.getSource()), (int) one.getLineNumber(),
                (int) one.getColumnNumber());
            String said = one.getMessage(null).replaceAll("\\s*\\n\\s*", "; ");
            obstacles.add(place, "library", "this is not in the library: " + said);
        }
        boolean inLibrary = obstacles.none();
        if (Numbers.tell(sources, obstacles)) {
            obstacles.silence(Set.of("long", "float", "double"));
        }
        Program program = null;
        ExecutableElement main = mainOf(sources, mainName);
        if (main == null) {
            result.told = "from-java: no class has public static void main(String[] args)\n";
            return result;
        }
        if (inLibrary) {
            program = built(sources, main);
        }
        if (!obstacles.none()) {
            java.io.ByteArrayOutputStream bytes = new java.io.ByteArrayOutputStream();
            obstacles.print(new PrintStream(bytes, true, StandardCharsets.UTF_8));
            result.told = bytes.toString(StandardCharsets.UTF_8);
            return result;
        }
        new Startup(program).write();
        Writer writer = new Writer(program);
        result.text = writer.write();
        result.map = new TextMap(program, writer).json();
        result.told = String.join("", program.leftOut.stream().map(one -> one + "\n").toList());
        return result;
    }

    /** The program; with containers apart, those share a class whose values meet others. */
    private Program built(Sources sources, ExecutableElement main) {
        Apart apart = Boolean.getBoolean("apart") ? new Apart(sources) : new Apart();
        while (true) {
            Obstacles met = apart.count() == 0 ? obstacles : new Obstacles();
            Program program = new Program(new World(sources, met, apart));
            try {
                program.build(main);
                program.tellUncalled();
            } catch (World.TooMany many) {
                program.leftOut.add("");
            }
            if (met == obstacles || met.none()) {
                return program;
            }
            apart.share(met.advices());
        }
    }

    private static String line(Sources sources, Diagnostic<? extends JavaFileObject> one) {
        String said = one.getMessage(null).replaceAll("\\s*\\n\\s*", "; ");
        return sources.nameOf(one.getSource()) + ":" + one.getLineNumber() + ":" + one.getColumnNumber() + ": " + said;
    }

    private static ExecutableElement mainOf(Sources sources, String name) {
        for (TypeElement one : sources.classes) {
            boolean asked = name.equals("-") || one.getSimpleName().contentEquals(name)
                || one.getQualifiedName().contentEquals(name);
            for (Element member : asked && !sources.isLibrary(sources.unitOf.get(one)) ? one.getEnclosedElements()
                : List.<Element>of()) {
                if (member.getKind() == ElementKind.METHOD && member.toString().equals("main(java.lang.String[])")
                    && member.getModifiers().containsAll(Set.of(Modifier.PUBLIC, Modifier.STATIC))) {
                    return (ExecutableElement) member;
                }
            }
        }
        return null;
    }
}
