import java.nio.file.Files;
import java.nio.file.Path;
import java.util.List;
import javax.tools.Diagnostic;
import javax.tools.DiagnosticCollector;
import javax.tools.JavaFileObject;
import javax.tools.ToolProvider;

/** Compiles each file of the command line by itself, and prints a line for each: "taken", or the first error. */
public class CompileEach {
    public static void main(String[] files) throws Exception {
        var compiler = ToolProvider.getSystemJavaCompiler();
        Path folder = Files.createTempDirectory("compiled");
        for (String file : files) {
            var found = new DiagnosticCollector<JavaFileObject>();
            var manager = compiler.getStandardFileManager(null, null, null);
            var options = List.of("-nowarn", "-proc:none", "-encoding", "UTF-8", "-d", folder.toString());
            compiler.getTask(null, manager, found, options, null, manager.getJavaFileObjects(file)).call();
            String said = "taken";
            for (var it : found.getDiagnostics()) {
                if (it.getKind() == Diagnostic.Kind.ERROR) {
                    said = it.getMessage(null).lines().findFirst().orElse("refused");
                    break;
                }
            }
            System.out.println(said);
        }
        try (var left = Files.walk(folder)) {
            left.sorted((a, b) -> b.compareTo(a)).forEach(it -> it.toFile().delete());
        }
    }
}
