"""Tests of what javac refuses of a written text though it took the original, as docs/JAVA.md says, and of the hints on it."""
import shutil
import subprocess

from kaba_tools import HERE, kaba

COLLECTED = """class Main {
  public static void main(String[] args) { A a = new A(); a.@(); a.n = 1; B c = new B(); A d = c; d.@(); }
}
class A { int n; public # @() { n = 2; % } }
class B extends A { int m; public # @() { m = 1; % } }
"""
NAMED = """class Main {
  public static void main(String[] args) { A a = new A(); a.n = 1; a.f(); System.out.println(a.g() + a.h(1)); }
}
class A { int n; void f() { n = 2; } int g() { return n; } int h(int k) { return n + k; } }
"""
ENDLESS = """class Main {
  static int m() { final boolean go = true; while (go) { System.out.println(1); } }
  public static void main(String[] args) { System.out.println(m()); }
}
"""
UNSET = """class Main {
  public static void main(String[] args) { int x; final boolean on = true; if (on) { x = 3; } System.out.println(x); }
}
"""
YIELDS = """class Main {
  static void yield() { System.out.println(1); }
  public static void main(String[] args) { Main.yield(); }
}
"""


def collected(name, result, value):
    return COLLECTED.replace("@", name).replace("#", result).replace("%", value)


# A program, an edit, a part of what javac says of the written text (nothing: it takes it), and a part of the hint.
CASES = [
    (ENDLESS, "", "missing return statement", "`final` variable"),
    (UNSET, "", "might not have been initialized", "`final` variable"),
    (YIELDS, "", "'yield'", "javac reads as a statement"),
    (collected("clone", "A", "return null;"), "", "cannot implement", "method `clone`"),
    (collected("finalize", "void", ""), "", "cannot implement", "the virtual machine calls"),
    *((NAMED, f"type n0 {name}", "not allowed here", "restricted") for name in ("var", "record", "yield", "sealed", "permits")),
    *((NAMED, f"member c1 {name}", "cannot override", "final in Object") for name in ("wait", "notify", "notifyAll", "getClass")),
    *((NAMED, f"member c1 {name}", "cannot override", "is not") for name in ("clone", "toString", "hashCode")),
    (NAMED, "member c3 finalize", "cannot override", "is not void"),
    (NAMED, "member c1 finalize", None, "the virtual machine calls"),
    (NAMED, "member c3 hashCode", None, None),
    (NAMED, "member c5 wait", None, None),
    (NAMED, "member c1 yield", None, None),
    (NAMED, "", None, None),
]


def check_written(tests):
    if not shutil.which("javac"):
        return
    folder = tests.folder / "written"
    folder.mkdir()
    files = []
    for number, (text, edit, _, hint) in enumerate(CASES):
        original, script, written = (folder / f"{number}.{end}" for end in ("java", "edits", "new.java"))
        original.write_text(text)
        script.write_text(edit + "\n")
        status, out, err = kaba("regen", str(original), str(script))
        tests.check(f"regen of {edit or text[:60]!r}: {status}", status == 0, err)
        written.write_bytes(out)
        files += [original, written]
        status, out, err = tests.tool("explain", "--written", str(original), str(script))
        fits = hint in out if hint else "nothing is known" in out
        tests.check(f"explain --written of {edit or text[:60]!r}", status == 0 and fits, out + err)
    done = subprocess.run(["java", str(HERE / "tools" / "CompileEach.java"), *map(str, files)], capture_output=True, text=True)
    said = done.stdout.splitlines()
    tests.check("the compiler told of each file", len(said) == len(files), done.stderr)
    for (text, edit, refused, _), original, written in zip(CASES, said[::2], said[1::2]):
        tests.check(f"javac of the original of {edit or text[:60]!r}", original == "taken", original)
        fits = refused in written if refused else written == "taken"
        tests.check(f"javac of what is written of {edit or text[:60]!r}", fits, written)
