"""The half of tools/compare-java that judges what `kaba sure` says of every run by runs of an installed JDK."""
import collections
import re
import sys
import tempfile
from pathlib import Path

from kaba_tools import HERE, kaba

WORDS = [[], ["one", "two"], ["", "x", "4", "5", "6"]]
LINE = re.compile(r"(cast|call) (\S+)@(\d+) (sure|open|none|many|one c(\d+))|c(\d+) (\S+)|(casts|calls|dead) \d+")

PROBE = """import java.lang.reflect.*;
import java.util.*;

/** What a run meets: casts that fail, the classes whose bodies calls run, bodies that are entered, fields that are used. */
class Probe {
  static final Set<String> met = Collections.synchronizedSet(new TreeSet<>());

  static Object cast(String place, Class<?> to, Object it) {
    if (it != null) {
      met.add((to.isInstance(it) ? "passed " : "failed ") + place);
    }
    return it;
  }

  static <T> T receiver(String place, String name, T it) {
    for (Class<?> c = it == null ? null : it.getClass(); c != null; c = c.getSuperclass()) {
      for (Method m : c.getDeclaredMethods()) {
        if (m.getName().equals(name) && !m.isBridge() && !Modifier.isAbstract(m.getModifiers())) {
          met.add("call " + place + " " + c.getSimpleName() + "." + name);
          return it;
        }
      }
    }
    return it;
  }

  static void entered(String body) {
    met.add("entered " + body);
  }

  static <T> T used(String field, T it) {
    if (it != null) {
      met.add("used " + field);
    }
    return it;
  }
}
"""

HARNESS = """import java.lang.reflect.*;
import java.io.*;
import java.net.*;
import java.nio.charset.StandardCharsets;
import java.nio.file.*;
import java.util.*;

/** Runs each class that is named on lists of words, each run alone in a thread, and writes what the runs met. */
public class Harness {
  static Set<String> met(String name, String[] words) throws Exception {
    URLClassLoader loader = new URLClassLoader(new URL[] {new File("classes/").toURI().toURL()}, null);
    Thread thread = new Thread(null, () -> {
      System.setOut(new PrintStream(OutputStream.nullOutputStream()));
      try {
        Method main = loader.loadClass(name).getDeclaredMethod("main", String[].class);
        main.setAccessible(true);
        main.invoke(null, (Object) words);
      } catch (Throwable e) {
        // a run may end in a fault
      }
    }, name, 1L << 28);
    thread.setDaemon(true);
    thread.start();
    thread.join(4000);
    if (thread.isAlive()) {
      thread.stop();
      thread.join(2000);
    }
    Field met = loader.loadClass("Probe").getDeclaredField("met");
    met.setAccessible(true);
    return new TreeSet<>((Set<String>) met.get(null));
  }

  public static void main(String[] names) throws Exception {
    String[][] lists = @lists@;
    for (String name : names) {
      Set<String> all = new TreeSet<>();
      for (String[] words : lists) {
        all.addAll(met(name, words));
      }
      Files.write(Path.of(name + ".met"), all, StandardCharsets.UTF_8);
    }
    System.exit(0);
  }
}
"""


def harness():
    """The text of the harness, with the lists of words as Java writes them."""
    lists = ", ".join("{" + ", ".join(f'"{word}"' for word in words) + "}" for words in WORDS)
    return HARNESS.replace("@lists@", "{" + lists + "}")


class Sure:
    """What `kaba sure` prints: of each cast and call its name, its line and its verdict, and the dead columns by their labels."""

    def __init__(self, text, labels):
        self.casts, self.calls, self.dead = [], [], set()
        for line in text.splitlines():
            kind, name, number, verdict, body, _, label, _ = LINE.fullmatch(line).groups()
            if label:
                self.dead.add(label)
            elif kind:
                said = labels[int(body)] if body else verdict
                (self.casts if kind == "cast" else self.calls).append((name, int(number), said))


def labels_of(table):
    """The labels of the columns that `kaba table` prints."""
    return re.findall(r"^c\d+ (.*)$", table, re.M)


def excluded(sure, spots, met):
    """The events that were met and that are excluded; `spots` are the casts and calls of the text, by their places."""
    casts = {place: said for (_, _, place), (_, _, said) in zip(spots["cast"], sure.casts)}
    calls = {place: said for (_, _, place), (_, _, said) in zip(spots["call"], sure.calls)}
    for line in met:
        kind, *of = line.split(" ")
        if kind == "failed" and casts[of[0]] == "sure":
            yield line
        if kind == "call" and calls[of[0]] not in ("many", f"def({of[1]})"):
            yield line
        if kind == "entered" and f"def({of[0]})" in sure.dead or kind == "used" and f"fld({of[0]})" in sure.dead:
            yield line


def spots_in(text):
    """The casts and the calls that the JDK's compiler finds in the text: name, line and place."""
    found = {"cast": [], "call": []}
    for line in text.splitlines():
        kind, *it = line.split(" ")
        found[kind].append(tuple(it))
    return found


def faults(name, folder, counts):
    """What the runs of a program met that is excluded, a line each; counts what is said and what was met."""
    text = str(folder / "kaba" / f"{name}.java")
    status, out, error = kaba("sure", text)
    if status:
        counts[f"left out: {error}"] += 1
        return []
    sure = Sure(out.decode(), labels_of(kaba("table", text)[1].decode()))
    spots = spots_in((folder / "java" / f"{name}.spots").read_text())
    for kind, said in (("cast", sure.casts), ("call", sure.calls)):
        if [(it[0], it[1]) for it in said] != [(it[0], int(it[1])) for it in spots[kind]]:
            return [f"{kind}s: {said} and not {spots[kind]}"]
    met = (folder / f"{name}.met").read_text().splitlines()
    counts["casts"] += len(sure.casts)
    counts["sure casts"] += sum(said == "sure" for _, _, said in sure.casts)
    counts["calls"] += len(sure.calls)
    counts["calls of no body"] += sum(said == "none" for _, _, said in sure.calls)
    counts["calls of one body"] += sum(said not in ("none", "many") for _, _, said in sure.calls)
    counts["dead members"] += len(sure.dead)
    counts["events"] += len(met)
    counts["failed casts"] += sum(line.startswith("failed ") for line in met)
    return list(excluded(sure, spots, met))


def compare_sure(program, count, seed, run):
    """Compares what is said of every run of random programs with what runs meet."""
    folder = Path(tempfile.mkdtemp(prefix="compare-sure-"))
    for part in ("kaba", "java", "classes", "tool"):
        (folder / part).mkdir()
    names = [f"P{n}" for n in range(seed, seed + count)]
    for n, name in enumerate(names):
        (folder / "kaba" / f"{name}.java").write_text(program(seed + n, name).text())
    (folder / "java" / "Probe.java").write_text(PROBE)
    (folder / "Harness.java").write_text(harness())
    javac = ["javac", "-nowarn", "-encoding", "UTF-8"]
    steps = [
        [*javac, "-d", "tool", str(HERE / "tools" / "SureProbes.java")],
        ["java", "-cp", "tool", "SureProbes", "kaba", "java", *names],
        [*javac, "-d", "classes", "java/Probe.java", *[f"java/{name}.java" for name in names]],
        [*javac, "Harness.java"],
        ["java", "-cp", ".", "Harness", *names],
    ]
    for words in steps:
        done = run(words, cwd=folder)
        if done.returncode:
            sys.exit(f"{done.stderr.decode()}\n{words[0]} fails in {folder}")
    counts, wrong = collections.Counter(), {}
    for name in names:
        found = faults(name, folder, counts)
        if found:
            wrong[name] = found
    for name, found in wrong.items():
        print(f"{folder}/kaba/{name}.java: {'; '.join(found)}")
    print(f"{count} programs, {len(wrong)} with an event that is excluded: " + ", ".join(f"{n} {what}" for what, n in counts.items()))
    return 1 if wrong else 0
