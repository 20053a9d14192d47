"""The half of tools/compare-java that judges the programs that `kaba regen` writes by an installed JDK."""
import collections
import random
import re
import subprocess
import sys
import tempfile
from pathlib import Path

from kaba_tools import HERE, Source, kaba

WORDS = [[], ["one", "two"], ["", "x", "gr\u00f6\u00dfe", "4", "5"]]
STEPS = "20000"
SCRIPTS = 2  # random scripts for each program, beside the empty one
UNBOUNDED = {"StackOverflowError", "OutOfMemoryError", "going"}
NO_TREE = 5

HARNESS = """import java.io.*;
import java.lang.reflect.*;
import java.net.*;
import java.nio.charset.StandardCharsets;
import java.nio.file.*;
import java.util.*;
import javax.tools.*;

/** Reads lines FOLDER CLASS LISTS; compiles the texts in FOLDER, and runs CLASS on each list of words. */
public class Judge {
  static final JavaCompiler COMPILER = ToolProvider.getSystemJavaCompiler();

  /** What the compiler says of the text but for unchecked warnings, or nothing. */
  static String compiled(File folder) throws Exception {
    DiagnosticCollector<JavaFileObject> said = new DiagnosticCollector<>();
    StandardJavaFileManager files = COMPILER.getStandardFileManager(said, null, StandardCharsets.UTF_8);
    List<String> options = List.of("-d", folder.getPath());
    File[] sources = folder.listFiles((f, name) -> name.endsWith(".java"));
    COMPILER.getTask(null, files, said, options, null, files.getJavaFileObjects(sources)).call();
    StringBuilder text = new StringBuilder();
    for (Diagnostic<?> one : said.getDiagnostics()) {
      if (!one.getCode().contains("unchecked")) {
        text.append(one).append("\\n");
      }
    }
    return text.toString();
  }

  static void run(File folder, String name, String[] words, String to) throws Exception {
    URLClassLoader loader = new URLClassLoader(new URL[] {folder.toURI().toURL()}, null);
    ByteArrayOutputStream out = new ByteArrayOutputStream();
    String[] end = {"ok"};
    Thread thread = new Thread(null, () -> {
      System.setOut(new PrintStream(out, true, StandardCharsets.UTF_8));
      try {
        Method main = loader.loadClass(name).getDeclaredMethod("main", String[].class);
        main.setAccessible(true);
        main.invoke(null, (Object) words);
      } catch (InvocationTargetException e) {
        end[0] = e.getCause().getClass().getSimpleName();
      } catch (Throwable e) {
        end[0] = e.toString();
      }
    }, name, 1L << 28);
    thread.setDaemon(true);
    thread.start();
    thread.join(8000);
    if (thread.isAlive()) {
      end[0] = "going";
      thread.stop();
      thread.join(2000);
    }
    Files.write(new File(folder, to + ".out").toPath(), out.toByteArray());
    Files.writeString(new File(folder, to + ".end").toPath(), end[0]);
  }

  public static void main(String[] args) throws Exception {
    String[][] lists = @lists@;
    PrintStream real = System.out;
    for (String line : Files.readAllLines(Path.of("jobs"))) {
      String[] job = line.split(" ");
      File folder = new File(job[0]);
      String said = compiled(folder);
      Files.writeString(new File(folder, "javac").toPath(), said);
      for (int k = 0; k < lists.length && said.isEmpty(); k++) {
        run(folder, job[1], lists[k].clone(), "" + k);
      }
      System.setOut(real);
    }
    System.exit(0);
  }
}
"""


def harness():
    """The text of the harness, with the lists of words as Java writes them."""
    lists = ", ".join("{" + ", ".join('"' + "".join(f"\\u{ord(c):04x}" if ord(c) > 126 else c for c in word) + '"' for word in words) + "}" for words in WORDS)
    return HARNESS.replace("@lists@", "{" + lists + "}")


class Nodes:
    """The nodes of a hierarchy as `kaba edit` prints it."""

    def __init__(self, text):
        self.origins, self.empty, self.members = {}, [], []
        for line in text.splitlines()[1:]:
            found = re.match(r"n(\d+) \w+ \S+ origin (\S+) above: .* columns: (.*) rows: (.*)$", line)
            node = int(found[1])
            self.origins[node] = found[2]
            self.members += [int(column.split(":")[0][1:]) for column in found[3].split() if ":" in column]
            if found[3] == found[4] == "-":
                self.empty.append(node)


def merge(nodes, chance, one, other):
    """A line that merges a node with some of its origin, and at times with another."""
    near = [node for node in nodes.origins if node != one and nodes.origins[node] == nodes.origins[one]]
    merged = {*chance.sample(near, min(len(near), chance.randint(1, 3))), *([other] if not near or chance.random() < 0.3 else [])}
    return "merge " + " ".join(f"n{node}" for node in [one, *sorted(merged - {one})])


def candidates(nodes, chance, count):
    """The lines of a random script: new names, drops, merges, orders and moves."""
    lines, all_nodes = [], sorted(nodes.origins)
    for n in range(count if len(all_nodes) > 1 else 0):
        form, (one, other) = chance.random(), chance.sample(all_nodes, 2)
        if form < 0.15:
            lines.append(f"type n{one} Type{n}")
        elif form < 0.3 and nodes.members:
            lines.append(f"member c{chance.choice(nodes.members)} part{n}")
        elif form < 0.4 and nodes.empty:
            lines.append(f"drop n{chance.choice(nodes.empty)}")
        elif form < 0.55:
            lines.append(f"under n{one} n{other}")
        elif form < 0.65 and nodes.members:
            lines.append(f"move c{chance.choice(nodes.members)} n{one}")
        else:
            lines.append(merge(nodes, chance, one, other))
    return lines


def accepted(file, script, lines):
    """Those of the lines that are accepted, one after the other."""
    script.write_text("\n".join(lines))
    _, _, err = kaba("edit", str(file), str(script))
    refused = {int(line.split()[1].rstrip(":")) for line in err.splitlines() if line.startswith("edit ")}
    return [line for k, line in enumerate(lines, 1) if k not in refused]


def declares_interface(file):
    return any(token.text == "interface" for token in Source(file.read_bytes()).tokens)


class Judged:
    """A program, the texts that are written of it, and what differs."""

    def __init__(self, name, text, main, folder, seed):
        self.name, self.main, self.folder, self.left_out = name, main, folder / name, ""
        self.parts, self.edits, self.again, self.no_tree, self.wrong = [], 0, 0, 0, []
        (self.folder / "old").mkdir(parents=True)
        self.file = self.folder / "old" / f"{main}.java"
        self.file.write_text(text)
        self.was = [kaba("run", str(self.file), STEPS, *words) for words in WORDS]
        if any(status not in (0, 10) for status, _, _ in self.was):
            self.left_out = "going"
        else:
            self.write_texts(random.Random(seed))

    def write_texts(self, chance):
        empty = self.folder / "0.edits"
        empty.write_text("")
        status, out, err = kaba("edit", str(self.file), str(empty))
        if status != 0:
            self.wrong.append(f"edit of the empty script: {status} {err[:200]}")
            return
        nodes = Nodes(out.decode())
        for k in range(SCRIPTS + 1):
            script = self.folder / f"{k}.edits"
            lines = accepted(self.file, script, candidates(nodes, chance, chance.randint(3, 14))) if k else []
            script.write_text("\n".join(lines))
            text = self.write_text(str(k), self.file, script, lines)
            if text:
                self.edits += len(lines)
                self.again += bool(self.write_text(f"{k}-again", text, empty, []))

    def write_text(self, part, file, script, lines):
        """The file of the text that is written after these edits, kept as a part; nothing where there is no tree."""
        status, out, err = kaba("regen", str(file), str(script))
        if status == NO_TREE and (lines or declares_interface(file)):
            self.no_tree += 1
            return None
        if status != 0:
            self.wrong.append(f"regen {part}: {status} {err[-200:]}")
            return None
        (self.folder / part).mkdir()
        text = self.folder / part / f"{self.main}.java"
        text.write_bytes(out)
        self.parts.append(part)
        for words, was in zip(WORDS, self.was):
            if kaba("run", str(text), STEPS, *words) != was:
                self.wrong.append(f"text {part}: kaba run differs on {words}")
        return text

    def jobs(self):
        return [] if self.left_out else [f"{self.folder / part} {self.main}" for part in ("old", *self.parts)]

    def compare(self):
        """What the JDK said and did, set beside what it did with the program that was given."""
        if self.left_out:
            return
        if self.said("old"):
            self.left_out = "javac"
            return
        for part in self.parts:
            if self.said(part):
                self.wrong.append(f"text {part}: javac: {self.said(part)[:200]}")
                continue
            for n, words in enumerate(WORDS):
                if not self.same(f"old/{n}", f"{part}/{n}"):
                    self.wrong.append(f"text {part}: java differs on {words}")

    def said(self, part):
        return (self.folder / part / "javac").read_text()

    def same(self, old, new):
        (was, end), (now, other) = (((self.folder / f"{run}.out").read_bytes(), (self.folder / f"{run}.end").read_text()) for run in (old, new))
        if end in UNBOUNDED and other in UNBOUNDED:
            return was.startswith(now) or now.startswith(was)
        return (was, end) == (now, other)


def judged_by_java(programs, folder, run):
    (folder / "Judge.java").write_text(harness())
    (folder / "jobs").write_text("".join(job + "\n" for program in programs for job in program.jobs()))
    for words in (["javac", "-nowarn", "Judge.java"], ["java", "-Dline.separator=\n", "-cp", ".", "Judge"]):
        done = run(words, cwd=folder)
        if done.returncode:
            sys.exit(f"{done.stderr.decode()}\n{words[0]} failed in {folder}")
    for program in programs:
        program.compare()


def looking_at_words(program):
    """The class of random programs that look at their words, made of that of those that do not."""

    class Looking(program):
        def number(self, depth):
            return "args.length" if self.in_main and self.chance(0.08) else super().number(depth)

        def string(self, depth):
            return f"args[{self.place(0)}]" if self.in_main and self.chance(0.04) else super().string(depth)

    return Looking


def compare_regen(kind, count, seed, run):
    """Judges the examples and COUNT random programs, of the classes that kind gives for their seeds, and counts."""
    folder = Path(tempfile.mkdtemp(prefix="compare-java-"))
    programs = []
    for path in sorted((HERE / "examples").glob("*.java")):
        text = path.read_text()
        main = re.findall(r"class (\w+)", text[: text.index("void main(")])[-1]
        programs.append(Judged(f"{path.stem}-example", text, main, folder, seed))
    for n in range(seed, seed + count):
        name = f"P{n}"
        text = looking_at_words(kind(n))(n, name).text().replace("static void main", "public static void main")
        programs.append(Judged(name, text, name, folder, n))
    judged_by_java(programs, folder, run)
    left = collections.Counter(program.left_out for program in programs if program.left_out)
    taken = [program for program in programs if not program.left_out]
    different = [program for program in taken if program.wrong]
    for program in different:
        print(f"{program.folder}: {'; '.join(program.wrong)}")
    again = sum(program.again for program in taken)
    texts = sum(len(program.parts) for program in taken) - again
    edits = sum(program.edits for program in taken)
    no_tree = sum(program.no_tree for program in taken)
    why = ", ".join(f"{n} {reason}" for reason, n in left.most_common()) or "none"
    print(f"{len(taken)} programs, {texts} texts after {edits} edits, {again} written again, ", end="")
    print(f"{no_tree} without a tree, {len(different)} programs different; left out: {why}")
    return 1 if different else 0
