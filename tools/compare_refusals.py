"""The second pass of tools/compare-java: programs with one thing wrong, and who refuses them."""
import collections
import random
import re
import sys
import tempfile
from pathlib import Path

from kaba_tools import fail, kaba

JUDGE = """import java.io.*;
import java.util.*;
import javax.tools.*;

/** Compiles each file that is named by itself, and says whether it is taken. */
public class Judge {
  public static void main(String[] names) throws Exception {
    JavaCompiler compiler = ToolProvider.getSystemJavaCompiler();
    for (String name : names) {
      DiagnosticCollector<JavaFileObject> said = new DiagnosticCollector<>();
      StandardJavaFileManager files = compiler.getStandardFileManager(said, null, null);
      List<String> options = List.of("-nowarn", "-proc:none", "-encoding", "UTF-8", "-d", "classes");
      System.out.println(name + " " + compiler.getTask(null, files, said, options, null, files.getJavaFileObjects(new File(name))).call());
    }
  }
}
"""

# What stands in each program beside the random part: NAME is the program's own.
BESIDE = """
interface NAMEFace { int told(); }
abstract class NAMEAbs { abstract int given(); final int sealed() { return 1; } }
class NAMESub extends NAMEAbs { int given() { return 2; } int own; private int hidden; static int shared; }
class NAMEOther { int part; static void two(int a, int b) { } public int open() { return 3; } }
final class NAMELast { }
"""

BOTH, KABA, JAVA = "both", "Kaba alone", "Java alone"

# Statements, put at the beginning of some body: the kind, who refuses, and forms of which one is taken.
STATEMENTS = [
    ("unknown variable", BOTH, ["int bad = nowhere;", "nowhere = 1;", "System.out.println(nowhere);"]),
    ("unknown method", BOTH, ["nowhere();", "new NAMEOther().nowhere();", "int bad = nowhere(1);"]),
    ("unknown class", BOTH, ["Nowhere bad = null;", "NAMEOther bad = new Nowhere();"]),
    ("unknown field", BOTH, ["new NAMEOther().nowhere = 1;", "int bad = new NAMESub().part;"]),
    ("a local twice", BOTH, ["int bad = 0; int bad = 1;", "for (int bad = 0; bad < 1; bad++) { boolean bad = true; }"]),
    ("a value of another type", BOTH, ['int bad = "x";', "boolean bad = 1;", "String bad = 'c';", "int[] bad = new char[1];", "char bad = 70000;"]),
    ("an ancestor's object without a cast", BOTH, ["NAMEAbs up = new NAMESub(); NAMESub bad = up;"]),
    ("an operand of another type", BOTH, ["int bad = true + 1;", "boolean bad = !1;", "boolean bad = 1 && true;", 'boolean bad = "a" < "b";']),
    ("a test that is not boolean", BOTH, ["if (1) { }", "while (null) { }", 'for (; "x"; ) { }']),
    ("number or type of arguments", BOTH, ["NAMEOther.two(1);", "NAMEOther.two(1, true);", "int bad = new NAMESub().given(1);"]),
    ("a cast that never succeeds", BOTH, ["NAMEOther bad = (NAMEOther) new NAMESub();", "int bad = (int) true;"]),
    ("a comparison that never holds", BOTH, ["boolean bad = new NAMEOther() == new NAMESub();", "boolean bad = 1 == true;"]),
    ("an abstract class created", BOTH, ["NAMEAbs bad = new NAMEAbs();", "NAMEFace bad = new NAMEFace();"]),
    ("a break outside of a loop", BOTH, ["break;", "continue;", "if (true) { break; }"]),
    ("a void call as a value", BOTH, ["int bad = NAMEOther.two(1, 2);", "System.out.println(NAMEOther.two(1, 2));"]),
    ("the length of an array stored", BOTH, ["int[] bad = new int[2]; bad.length = 3;"]),
    ("a missing semicolon", BOTH, ["int bad = 1", "NAMEOther.two(1, 2)"]),
    ("an expression as a statement", BOTH, ["1 + 2;", '"x";', "new NAMEOther().part;"]),
    ("an else without an if", BOTH, ["else { }", "while (false) { } else { }"]),
    ("a number that is too large", BOTH, ["int bad = 2147483648;", "int bad = 4294967296;"]),
    ("an open string", BOTH, ['String bad = "x;']),
    ("a local without a value", JAVA, ["int bad; System.out.println(bad);", "NAMEOther bad; bad.part = 1;", "int bad; if (1 > 2) { bad = 1; } int x = bad;"]),
    ("a final local stored again", JAVA, ["final int bad = 1; bad = 2;", "final NAMEOther bad = null; bad = new NAMEOther();"]),
    ("unreachable code", JAVA, ["while (true) { } int bad = 1;", "for (;;) { } System.out.println();", "while (true) { break; int bad = 1; }"]),
    ("a loop that is never entered", JAVA, ["while (false) { int bad = 1; }", "for (; false; ) { int bad = 1; }"]),
    ("a private member of another class", JAVA, ["new NAMESub().hidden = 1;", "int bad = new NAMESub().hidden;"]),
    ("for-each", KABA, ["int[] good = new int[2]; for (int x : good) { }"]),
    ("? :", KABA, ["int good = true ? 1 : 2;"]),
    ("switch", KABA, ["switch (1) { case 1: break; default: }"]),
    ("do", KABA, ["int good = 1; do { good = good - 1; } while (good > 0);"]),
    ("two variables a declaration", KABA, ["int good = 1, fine = 2;"]),
    ("an array initialiser", KABA, ["int[] good = {1, 2};", "int[] good = new int[] {1, 2};"]),
    ("++ within an expression", KABA, ["int good = 1; int fine = good++;", "int good = 0; int[] fine = new int[2]; fine[good++] = 1;"]),
    ("a compound assignment of a member", KABA, ["NAMEOther good = new NAMEOther(); good.part += 1;", "int[] good = new int[1]; good[0]++;"]),
    ("long and double", KABA, ["long good = 1;", "double good = 1.5;", "int good = (int) 1L;"]),
    ("a character from a constant", KABA, ["char good = 65;", "char good = 'a' + 1;"]),
    ("another escape or a hexadecimal number", KABA, ["char good = '\\0';", 'String good = "\\u0041";', "int good = 0x1F;", "int good = 1_000;"]),
    ("an exception", KABA, ["try { int good = 1; } catch (RuntimeException e) { }", "if (false) throw new RuntimeException();"]),
    ("the Java library", KABA, ["int good = Math.max(1, 2);", 'String good = "abc".substring(1);', "String good = String.valueOf(1);", "Integer good = 1;"]),
    ("a static member by an object", KABA, ["int good = new NAMESub().shared;"]),
    ("a variable with the name of a class", KABA, ["int NAMEOther = 1;"]),
    ("instanceof with String", KABA, ['Object good = "x"; boolean fine = good instanceof String;']),
    ("an object joined with a string", KABA, ['String good = "x" + new NAMEOther();', "System.out.println(new NAMEOther());"]),
]

# Declarations, put behind the program.
DECLARATIONS = [
    ("a class twice", BOTH, ["class NAMEOther { }", "interface NAMESub { }"]),
    ("a class that is its own ancestor", BOTH, ["class NAMEX extends NAMEX { }", "class NAMEX extends NAMEY { } class NAMEY extends NAMEX { }"]),
    ("a field twice", BOTH, ["class NAMEX { int a; boolean a; }"]),
    ("a method twice", BOTH, ["class NAMEX { int a() { return 1; } int a() { return 2; } }"]),
    ("an abstract method without a body", BOTH, ["class NAMEX extends NAMEAbs { }", "class NAMEX implements NAMEFace { }"]),
    ("a method without a body", BOTH, ["class NAMEX { int a(); }", "class NAMEX { abstract int a(); }"]),
    ("an interface's method that is not public", BOTH, ["class NAMEX implements NAMEFace { int told() { return 1; } }"]),
    ("this in a static method", BOTH, [
        "class NAMEX { int a; static int b() { return this.a; } }",
        "class NAMEX { int a; static int b() { return a; } }",
    ]),
    ("a result of another type", BOTH, ["class NAMEX { int a() { return true; } }", "class NAMEX { void a() { return 1; } }"]),
    ("another result below", BOTH, ["class NAMEX extends NAMESub { boolean given() { return true; } }"]),
    ("static below an instance method", BOTH, ["class NAMEX extends NAMESub { static int given() { return 1; } }"]),
    ("a class where an interface is asked", BOTH, ["class NAMEX implements NAMEOther { }", "class NAMEX extends NAMEFace { }"]),
    ("super of an abstract method", BOTH, ["class NAMEX extends NAMEAbs { int given() { return super.given(); } }"]),
    ("a modifier twice", BOTH, ["class NAMEX { static static int a; }", "class NAMEX { public public int a() { return 1; } }"]),
    ("a bracket too few", BOTH, ["class NAMEX { int a() { return 1; }"]),
    ("a bracket too many", BOTH, ["class NAMEX { int a() { return 1; } } }"]),
    ("a missing return", JAVA, ["class NAMEX { int a() { } }", "class NAMEX { int a(boolean b) { if (b) { return 1; } } }"]),
    ("a final field stored", JAVA, ["class NAMEX { final int a; void b() { a = 1; } }"]),
    ("a final parameter stored", JAVA, ["class NAMEX { void a(final int b) { b = 1; } }"]),
    ("a final method overridden", JAVA, ["class NAMEX extends NAMESub { int sealed() { return 2; } }"]),
    ("a final class extended", JAVA, ["class NAMEX extends NAMELast { }"]),
    ("less access below", JAVA, ["class NAMEX extends NAMEOther { int open() { return 4; } }"]),
    ("two kinds of access", JAVA, ["class NAMEX { public private int a; }", "class NAMEX { protected public void a() { } }"]),
    ("a public class of another name", JAVA, ["public class NAMEX { }"]),
    ("a constructor of another name", BOTH, ["class NAMEX { NAMEY() { } }"]),
    ("a constructor without a body", BOTH, ["class NAMEX { NAMEX(); }"]),
    ("a constructor in an interface", BOTH, ["interface NAMEX { NAMEX(); }", "interface NAMEX { NAMEX() { } }"]),
    ("a constructor's modifier", BOTH, [
        "class NAMEX { static NAMEX() { } }",
        "class NAMEX { final NAMEX() { } }",
        "abstract class NAMEX { abstract NAMEX() { } }",
        "class NAMEX { public public NAMEX() { } }",
    ]),
    ("arguments of a creation", BOTH, [
        "class NAMEX { NAMEX(int a) { } static NAMEX b() { return new NAMEX(); } }",
        "class NAMEX { NAMEX(int a) { } static NAMEX b() { return new NAMEX(true); } }",
        "class NAMEX { static NAMEX b() { return new NAMEX(1); } }",
    ]),
    ("arguments of an implied constructor", BOTH, [
        "class NAMEX { NAMEX() { } } class NAMEY extends NAMEX { static NAMEY b() { return new NAMEY(1); } }",
    ]),
    ("arguments of super(..)", BOTH, [
        "class NAMEX { NAMEX(int a) { } } class NAMEY extends NAMEX { NAMEY() { super(); } }",
        "class NAMEX { NAMEX(int a) { } } class NAMEY extends NAMEX { NAMEY() { super(null); } }",
        "class NAMEX { } class NAMEY extends NAMEX { NAMEY() { super(1); } }",
    ]),
    ("a call of the constructor above left out", BOTH, [
        "class NAMEX { NAMEX(int a) { } } class NAMEY extends NAMEX { NAMEY() { } }",
        "class NAMEX { NAMEX(int a) { } } class NAMEY extends NAMEX { }",
    ]),
    ("super(..) behind a statement", BOTH, [
        "class NAMEX { NAMEX() { int a = 1; super(); } }",
        "class NAMEX { NAMEX() { super(); super(); } }",
        "class NAMEX { NAMEX() { { super(); } } }",
        "class NAMEX { NAMEX() { super().hashCode(); } }",
    ]),
    ("super(..) in a method", BOTH, ["class NAMEX { void a() { super(); } }", "class NAMEX { static void a() { super(); } }"]),
    ("the object in the arguments of super(..)", BOTH, [
        "class NAMEX { NAMEX(Object a) { } } class NAMEY extends NAMEX { NAMEY() { super(this); } }",
        "class NAMEX { int b; NAMEX(int a) { } } class NAMEY extends NAMEX { NAMEY() { super(b); } }",
        "class NAMEX { NAMEX(int a) { } int b() { return 1; } } class NAMEY extends NAMEX { NAMEY() { super(b()); } }",
        "class NAMEX { NAMEX(int a) { } int b() { return 1; } } class NAMEY extends NAMEX { NAMEY() { super(super.b()); } }",
    ]),
    ("a constructor called as a method", BOTH, [
        "class NAMEX { NAMEX() { } void a() { NAMEX(); } }",
        "class NAMEX { NAMEX() { } void a() { this.NAMEX(); } }",
    ]),
    ("a constructor with a result", BOTH, ["class NAMEX { NAMEX() { return 1; } }"]),
    ("a constructor's parameter twice", BOTH, ["class NAMEX { NAMEX(int a, int a) { } }", "class NAMEX { NAMEX(int a) { int a = 1; } }"]),
    ("an object of an abstract class with a constructor", BOTH, ["abstract class NAMEX { NAMEX() { } static NAMEX a() { return new NAMEX(); } }"]),
    ("a private constructor of another class", JAVA, ["class NAMEX { private NAMEX() { } } class NAMEY { NAMEX a() { return new NAMEX(); } }"]),
    ("a second constructor", KABA, ["class NAMEX { NAMEX() { } NAMEX(int a) { } }"]),
    ("this(..)", KABA, ["class NAMEX { NAMEX(int a) { } NAMEX() { this(1); } }"]),
    ("a field's initial value", KABA, ["class NAMEX { int a = 1; }", "class NAMEX { static final int A = 1; }"]),
    ("overloading", KABA, ["class NAMEX { int a() { return 1; } int a(int b) { return b; } }"]),
    ("generics", KABA, ["class NAMEX<T> { T a; }"]),
    ("an annotation", KABA, ["class NAMEX extends NAMESub { @Override int given() { return 3; } }"]),
    ("an enum", KABA, ["enum NAMEX { A, B }"]),
    ("a class within a class", KABA, ["class NAMEX { static class Y { } }"]),
    ("brackets behind a name", KABA, ["class NAMEX { int a[]; }"]),
    ("an ancestor's static member by its simple name", KABA, ["class NAMEX extends NAMESub { int a() { return shared; } }"]),
]


def with_statement(text, form, choice):
    """The text with a statement at the beginning of some body."""
    heads = [found.end() for found in re.finditer(r"^  \S.*\) \{\n", text, re.M)]
    at = choice.choice(heads)
    return f"{text[:at]}    {form}\n{text[at:]}"


def programs(of_seed, count, seed):
    """The programs: kind, who is to refuse, name and text."""
    number = seed
    for kinds, is_statement in ((STATEMENTS, True), (DECLARATIONS, False)):
        for kind, who, forms in kinds:
            for n in range(count):
                name = f"P{number}"
                choice = random.Random(number)
                text = of_seed(number, name).replace("static void main", "public static void main")
                form = forms[n % len(forms)].replace("NAME", name)
                wrong = with_statement(text, form, choice) if is_statement else f"{text}{form}\n"
                yield kind, who, name, wrong + BESIDE.replace("NAME", name)
                number += 1


def judged_by_java(folder, names, run):
    """The names of the programs that the JDK's compiler takes."""
    (folder / "Judge.java").write_text(JUDGE)
    (folder / "classes").mkdir()
    done = run(["javac", "-nowarn", "Judge.java"], cwd=folder)
    done = done if done.returncode else run(["java", "-cp", ".", "Judge", *[name + ".java" for name in names]], cwd=folder)
    if done.returncode:
        fail(f"the JDK fails in {folder}: {done.stderr.decode(errors='replace').strip().splitlines()[-1]}")
    return {line.split(".java ")[0] for line in done.stdout.decode().splitlines() if line.endswith(" true")}


def compare_refusals(of_seed, count, seed, run):
    """Prints who refuses, by kind; the status is 1 where it is not as said here."""
    folder = Path(tempfile.mkdtemp(prefix="compare-java-"))
    made = list(programs(of_seed, count, seed))
    for _, _, name, text in made:
        (folder / f"{name}.java").write_text(text)
    taken = judged_by_java(folder, [name for _, _, name, _ in made], run)
    counts, said, odd = {}, collections.defaultdict(collections.Counter), []
    for kind, who, name, _ in made:
        status, _, error = kaba("run", str(folder / f"{name}.java"), "0")
        ours, java = status == 65, name not in taken
        verdict = {(True, True): BOTH, (True, False): KABA, (False, True): JAVA}.get((ours, java), "neither")
        counts.setdefault(kind, collections.Counter())[verdict] += 1
        if ours:
            said[kind][" ".join(re.findall(r"refused: (IllTyped \w+|NotInProfile \w+|\w+)", error))] += 1
        if verdict != who:
            odd.append(name)
    print(f"{'what is wrong':<48}{BOTH:>6}{KABA:>12}{JAVA:>12}{'neither':>9}  Kaba says")
    for kind, counted in counts.items():
        words = ", ".join(word for word, _ in said[kind].most_common())
        print(f"{kind:<48}{counted[BOTH]:>6}{counted[KABA]:>12}{counted[JAVA]:>12}{counted['neither']:>9}  {words}".rstrip())
    total = sum(counts.values(), collections.Counter())
    print(f"{len(made)} programs: " + ", ".join(f"{total[who]} {who}" for who in (BOTH, KABA, JAVA, "neither")) + f"; {len(odd)} not as expected")
    if odd:
        print(f"{folder}: {' '.join(odd)}", file=sys.stderr)
    return 1 if odd else 0
