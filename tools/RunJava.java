import java.io.IOException;
import java.io.PrintStream;
import java.lang.reflect.InvocationTargetException;
import java.lang.reflect.Method;
import java.net.URI;
import java.net.URL;
import java.net.URLClassLoader;
import java.nio.charset.StandardCharsets;
import java.nio.file.Files;
import java.nio.file.Path;
import java.util.Arrays;
import java.util.Comparator;
import java.util.List;
import java.util.regex.Matcher;
import java.util.regex.Pattern;
import java.util.stream.Stream;
import javax.tools.JavaCompiler;
import javax.tools.JavaFileManager;
import javax.tools.JavaFileObject;
import javax.tools.SimpleJavaFileObject;
import javax.tools.ToolProvider;

/** Compiles the file of the first word, and calls its `main` with the others: `java RunJava.java FILE [WORD..]`. */
class RunJava {
  /** A text that may declare public classes of any name. */
  static class Text extends SimpleJavaFileObject {
    final String text;

    Text(String text) {
      super(URI.create("string:///Text.java"), JavaFileObject.Kind.SOURCE);
      this.text = text;
    }

    @Override
    public CharSequence getCharContent(boolean ignoreEncodingErrors) {
      return text;
    }

    @Override
    public boolean isNameCompatible(String name, JavaFileObject.Kind kind) {
      return true;
    }
  }

  public static void main(String[] words) throws Exception {
    if (words.length == 0) {
      System.err.println("usage: java RunJava.java FILE [WORD..]");
      System.exit(64);
    }
    Path classes = Files.createTempDirectory("RunJava");
    int status;
    try {
      status = run(words, classes);
    } finally {
      remove(classes);
    }
    System.exit(status);
  }

  /** The status: 64 to 66 where there is nothing to run, 1 where the run ends with an exception. */
  static int run(String[] words, Path classes) throws Exception {
    String text;
    try {
      text = Files.readString(Path.of(words[0]));
    } catch (IOException e) {
      System.err.println("cannot read " + words[0] + ": " + e);
      return 66;
    }
    JavaCompiler compiler = ToolProvider.getSystemJavaCompiler();
    JavaFileManager files = compiler.getStandardFileManager(null, null, StandardCharsets.UTF_8);
    List<String> options = List.of("-Xlint:none", "-proc:none", "-d", classes.toString());
    if (!compiler.getTask(null, files, null, options, null, List.of(new Text(text))).call()) {
      return 65;
    }
    Method main = mainOf(classes, text);
    if (main == null) {
      System.err.println("no class declares static void main(String[])");
      return 65;
    }
    return call(main, Arrays.copyOfRange(words, 1, words.length));
  }

  /** The `main` of the class that stands first in the text among those that have one. */
  static Method mainOf(Path classes, String text) throws Exception {
    URLClassLoader loader = new URLClassLoader(new URL[] {classes.toUri().toURL()}, null);
    Matcher declared = Pattern.compile("\\bclass\\s+([\\p{L}\\p{N}_$]+)").matcher(text);
    while (declared.find()) {
      try {
        Method main = loader.loadClass(declared.group(1)).getDeclaredMethod("main", String[].class);
        main.setAccessible(true);
        return main;
      } catch (ClassNotFoundException | NoSuchMethodException e) {
        continue;
      }
    }
    return null;
  }

  static int call(Method main, String[] words) throws Exception {
    System.setProperty("line.separator", "\n");
    System.setOut(new PrintStream(System.out, true, StandardCharsets.UTF_8));
    try {
      main.invoke(null, (Object) words);
      return 0;
    } catch (InvocationTargetException e) {
      System.out.flush();
      System.err.println("Exception in thread \"main\" " + e.getCause());
      return 1;
    }
  }

  static void remove(Path folder) throws IOException {
    try (Stream<Path> files = Files.walk(folder)) {
      for (Path file : files.sorted(Comparator.reverseOrder()).toList()) {
        Files.delete(file);
      }
    }
  }
}
