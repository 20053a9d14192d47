"""Tests of `kaba sure` on examples/, of tools/report --sure, and of what it says beside runs of a JDK."""
import re
import shutil

from kaba_tools import HERE, kaba

PARTS = {"casts": r"cast \S+@\d+ (?:sure|open)", "calls": r"call \S+@\d+ (?:none|many|one c\d+)", "dead": r"c\d+ (?:fld|def)\(\S+\)"}
BASES = "examples/Bases.java"

# A program, and what is told of each of its lines but those of which nothing is.
TOLD = """class A { int f; int g; A m() { return this; } A n() { return this.m(); } }
class B extends A { A m() { return null; } }
class M { public static void main(String[] words) {
A x = new B(); B y = (B) x; A z = x.m(); z = new A(); z = x;
B b = (B) z; System.out.println(y.f + b.f); } }
"""
SAID = """what is sure of every run: 1 of 2 casts, 2 of 2 calls, 3 members that no run reaches
  line 1: class A { int f; int g; A m() { return this; } A n() { return this.m(); } }
    the call of m() runs no body: nothing can be its receiver
    no run reads or writes A.g of an object
    no run enters the body of A.m()
    no run enters the body of A.n()
  line 4: A x = new B(); B y = (B) x; A z = x.m(); z = new A(); z = x;
    the cast to B never fails
    the call of m() runs no body but that of B.m() (line 2)
"""


def is_report(text):
    """Whether the lines are the three parts of a report, each with so many lines as it says."""
    lines = text.splitlines()
    for name, form in PARTS.items():
        found = re.fullmatch(rf"{name} (\d+)", lines.pop(0)) if lines else None
        if not found or len(lines) < int(found[1]) or not all(re.fullmatch(form, line) for line in lines[: int(found[1])]):
            return False
        del lines[: int(found[1])]
    return not lines


def check_sure(tests):
    """Each example that has a table has a report."""
    for path in sorted((HERE / "examples").glob("*.java")):
        status, table, _ = kaba("table", str(path))
        if status:
            continue
        status, out, err = kaba("sure", str(path))
        tests.check(f"{path.name} has no report", status == 0 and is_report(out.decode()), err + out.decode()[:400])


def check_report_sure(tests):
    """What is told in words stands at the lines of the source; of one class alone where it is named; the page marks them."""
    told = tests.file("Told.java", TOLD)
    tests.check("report --sure tells otherwise", tests.tool("report", "--sure", told)[:2] == (0, SAID), tests.tool("report", "--sure", told)[1])
    out = tests.tool("report", "--sure", "--class", "B", told)[1]
    tests.check("report --sure tells of another class", out == SAID.splitlines()[0] + "\n  nothing\n", out)
    status, out, err = tests.tool("report", "--sure", BASES)
    tests.check("report --sure tells nothing", status == 0 and out.startswith("what is sure of every run: "), out + err)
    for line in re.findall(r"^  line (\d+): (.*)$", out, re.M):
        given = (HERE / BASES).read_text().splitlines()[int(line[0]) - 1].strip()
        tests.check(f"line {line[0]} is told otherwise", given == line[1], line[1])
    page = tests.file("sure.html", "")
    status, out, err = tests.tool("report", "--html", page, BASES)
    with open(page, encoding="utf-8") as opened:
        tests.check("no line of the page is marked", status == 0 and ' class="sure" title="' in opened.read(), err)


def check_sure_runs(tests):
    """No run of some random programs meets what the report excludes."""
    if shutil.which("javac") is None:
        return
    for words in (("--sure", "20", "300"), ("--sure", "--interfaces", "20", "600")):
        status, out, err = tests.tool("compare-java", *words)
        tests.check(f"compare-java {' '.join(words)}", status == 0 and " 0 with an event" in out, out + err)
