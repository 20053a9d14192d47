"""Tests of tools/explain on many faults, on scripts and on what Java reads otherwise, and of the JSON of tools."""
import json

from kaba_scripts import edits_in, fault_in, faults_in
from kaba_tools import kaba

# Statements, and for each line of what is told its place and a part of it.
HINTS = [
    ("int k = 1.05;", ["3:12: BadByte: there are no fractional numbers"]),
    ("int k = .5;", ["3:9: NotAProgram: there are no fractional numbers"]),
    ("boolean b = 1 < 3 &&;", ["3:21: NotAProgram: no program goes on with `;`"]),
    ("Box<String> l = null;", ["3:1: Unknown: `Box`", "3:4: NotAProgram: there are no generics", "2 places of 2 kinds"]),
    ("Object f = (a, b) -> a;", ["3:14: NotAProgram: there are no lambdas"]),
    ("int j; int i = j = 2;", ["3:18: NotAProgram: an assignment is a statement of its own", "write j = ..; int i = j;"]),
    ("int i = 0; char c = i;", ["3:19: IllTyped Assign"]),
    ("int i = true; char c = i;", ["3:7: IllTyped Assign", "3:22: the same: int i = true;", "2 places of one kind"]),
]

# Members of a class A below a class Up with a constructor, and for each the place and a part of what is told.
MAKERS = [
    ("B() { super(1); }", "3:1: Unknown: a constructor has the name of its class, which is `A`"),
    ("A() { super(1); } A(int k) { super(k); }", "3:19: Overload: a class has one constructor"),
    ("static A() { super(1); }", "3:1: NotInProfile Modifier: before a constructor stand public, protected and private alone"),
    ("int f; A() { super(f); }", "3:20: NotInProfile ThisInStatic: what super(..) is given"),
    ("A() { }", "3:1: IllTyped Arguments: super(..) does not fit the constructor of the class above"),
    ("int f;", "2:7: IllTyped Arguments: this class has no constructor"),
    ("A() { super(1); Up up = new Up(); }", "3:25: IllTyped Arguments: the arguments do not fit the parameters of the class's constructor"),
    ("A() { super(1); super(1); }", "3:22: NotAProgram: super(..) stands first in the body of a constructor"),
    ("A() { this(1); }", "3:11: NotAProgram: no constructor calls another one of its class"),
    ("A();", "3:4: NotAProgram: a constructor has a body behind its parameters"),
]
# A fault in the constructor above one that has begun with its `super(..)`.
MADE = """class A { int a; A(int x) { this.a = 1 / x; } }
class B extends A { B(int x) { super(x + 1); return; } }
class Main { static void main(String[] a) { new B(-1); } }
"""
UP = "class Main { static void main(String[] a) { } } class Up { Up(int k) { } }\nclass A extends Up {\n"

SUBCLASS = """class Main { static void main(String[] a) { } }
class A { int n; void init(int k) { n = k; } }
class B extends A { int m; void init(int k, int l) { n = k; m = l; } }
"""

# A line of a script, and a part of why it is no edit.
NO_EDITS = [
    (b"merge n1, n2", "without commas: merge n1 n2"),
    (b"merge n1 n2 # both", "a comment has a line of its own"),
    (b"merge n1 n2\r", "ends as in Windows"),
    (b"// merge", "a comment begins with #"),
    (b" merge n1 n2", "a space stands first or last"),
    (b"merge n1\tn2", "a tab is a part of a word"),
    (b"merge n1", "too few words"),
    (b"merge 1 2", "a number without its letter: a node is written n1"),
    (b"move n1 c1", "`n1` stands where a column is wanted"),
    (b"type n1 A B", "a name has no spaces"),
    (b"join n1 n2", "no edit is called `join`"),
    (b"Merge n1 n2", "small letters"),
    (b"drop n01", "a leading zero"),
    (b"drop n4294967296", "over 4294967295"),
    (b"drop n1;", "no edit ends with `;`"),
    (b"drop \xff", "not UTF-8"),
    (b"undo n1", "too many words: this edit is written undo"),
    (b"Undo", "small letters: undo"),
]

# Edits on examples/Bases.java, each with a part of what is told, and the edits that would be made in its place.
REFUSED = [
    ("merge n0 n2", "n1 (A_1) lies between", "merge n0 n2 n1"),
    ("under n0 n1", "n0 (Object_0) already stands below", "merge n0 n1"),
    ("move c0 n2", "r2 (Bases.main.x, line 10) at n1 (A_1) needs c0 (field A.f, line 2)", "move c0 n0"),
    ("drop n1", "n1 (A_1) is not empty: c0 (field A.f, line 2)", None),
    ("type n1 A_2", "the type n2 (A_2) has the name already", "type n1 A_2_"),
    ("type n1 x", "`Bases.main.x` in line 10", "type n1 x_"),
    ("type n1 if", "`if` is a keyword", "type n1 if_"),
    ("type n1 a-b", "`a-b` is no identifier", None),
    ("type n1 Bases", "the class Bases in line 8", "type n1 Bases_"),
    ("member c0 Object", "`Object` is known", "member c0 Object_"),
    ("merge n2 n3", "two bodies of one method: c2 (body A.m, line 3) and c4 (body B.m, line 6)", "under n2 n3"),
    ("merge n9 n1", "there is no node n9: the greatest is n3", None),
    ("member c99 x", "there is no column c99", None),
    ("undo", "nothing is left to undo", None),
]

ESCAPES = 'class Main { static void main(String[] a) { /* \\u002a/ */ String s = "//"; } } // \\user\n'

BOXES = """class Main {
  public static void main(String[] args) { Box a = new Box(); a.put(new Dog()); Box b = new Box(); b.put(new Car()); }
}
class Box { Object value; void put(Object o) { value = o; } }
class Dog { int n; void put(Object o) { n = 1; } }
class Car { int n; }
"""


def check_explain_all(tests):
    for statement, wanted in HINTS:
        file = tests.file("hint.java", "class Main {\n  static void main(String[] args) {\n" + statement + "\n  }\n}\n")
        status, out, err = tests.tool("explain", file)
        tests.check(f"explain of `{statement}`", status == 65 and all(part in out for part in wanted), out + err)
    for member, wanted in MAKERS:
        status, out, err = tests.tool("explain", "--first", tests.file("maker.java", UP + member + "\n}\n"))
        tests.check(f"explain of `{member}`", status == 65 and f":{wanted}" in out, out + err)
    status, out, err = tests.tool("explain", tests.file("made.java", MADE))
    fits = status == 10 and "1:29: in A.A" in out and "3:45: in Main.main" in out
    tests.check("explain of a fault in a constructor", fits, out + err)
    file = tests.file("maker.java", UP + "A() { super(1); }\n}\n")
    status, out, err = tests.tool("report", file)
    tests.check("a report of a constructor", status == 0 and "A.A" in out, out + err)
    status, out, err = tests.tool("hierarchy", "--json", file)
    tests.check("a hierarchy with a constructor", status == 0 and "def(A.A)" in out, out + err)
    tests.one_line("a proposal for a constructor", 75, tests.tool("propose", file))
    status, out, err = tests.tool("explain", tests.file("sub.java", SUBCLASS))
    tests.check("explain of an init that clashes", "3:33: Overload" in out and "call it initB here" in out, out + err)
    status, out, err = tests.tool("explain", "examples/java/Shop.java")
    ours = [line for line in out.splitlines() if line.startswith("examples/java/Shop.java:")]
    tests.check("explain of many faults", status == 65 and len(ours) == 11, out + err)
    status, out, err = tests.tool("explain", "--first", "examples/java/Shop.java")
    tests.check("explain --first", status == 65 and out.count("\n") == 3, out + err)
    status, out, err = tests.tool("explain", tests.file("escapes.java", ESCAPES))
    told = [line for line in out.splitlines() if "warning: " in line]
    fits = len(told) == 2 and ":1:48: warning: Java reads" in told[0] and ":1:83: warning: javac refuses" in told[1]
    tests.check("explain of escapes in comments", status == 0 and fits, out + err)


def check_scripts(tests):
    """A line is an edit here exactly where the program takes it."""
    for line, wanted in NO_EDITS:
        tests.check(f"{line!r} is no edit", wanted in fault_in(line) and len(faults_in(line)) == 1, fault_in(line))
        status = kaba("edit", "examples/Bases.java", tests.file("line.edits", line))[0]
        tests.check(f"{line!r} is no edit to the program: {status}", status == 69)
    for line in (b"merge n1  n2", b"merge n1 n1 n2", b"type n1 a,b", b"# merge", b"", b"move c0 n1", b"drop n4294967295",
                 b"undo"):
        status = kaba("edit", "examples/Bases.java", tests.file("line.edits", line))[0]
        tests.check(f"{line!r} is taken: {status}", status in (0, 4) and not faults_in(line))
    script = b"# one\nmerge n1 n2\n\ntype n1 New"
    tests.check("edits by their lines", [edit.text for edit in edits_in(script).values()] == ["merge n1 n2", "type n1 New"])
    file = tests.file("bad.edits", b"merge n1, n2\ndrop n1\nfoo\n")
    status, out, err = tests.tool("explain", "examples/Bases.java", file)
    fits = f"{file}:1: no edit: " in out and f"{file}:3: no edit: " in out and "2 lines are no edits" in out
    tests.check("explain of lines that are no edits", status == 69 and fits, out + err)


def check_refusals(tests):
    """All edits in one script: each is refused, so that each meets the hierarchy as it starts."""
    file = tests.file("refused.edits", "".join(edit + "\n" for edit, _, _ in REFUSED))
    status, out, err = tests.tool("explain", "examples/Bases.java", file)
    parts = out.split(f"{file}:")
    tests.check("explain of refused edits", status == 4 and len(parts) == len(REFUSED) + 2, out + err)
    for (edit, wanted, made), part in zip(REFUSED, parts[1:]):
        would = f"would be made: {made}\n" if made else ""
        fits = wanted in part and would in part and ("would be made" in part) == bool(made)
        tests.check(f"explain of `{edit}`", fits, part)
    status, out, err = tests.tool("explain", "examples/Tasks.java", "examples/tasks.edits")
    tests.check("explain of a script that is made", (status, out.count("\n")) == (0, 1), out + err)


def check_json(tests):
    status, out, err = tests.tool("hierarchy", "--json", "--tree", "examples/Kinds.java", "examples/kinds.edits")
    found = json.loads(out)
    nodes = {node["number"]: node for node in found["nodes"]}
    fits = status == 5 == found["status"] and nodes[5]["above"] == [3, 4] and nodes[0]["below"] == [1, 2]
    fits = fits and nodes[3]["members"][0]["label"] == "fld(A.a)" and nodes[1]["kind"] == "interface"
    conflict = found["tree"]["conflict"]
    tests.check("hierarchy --json --tree", fits and conflict["between"] == [5, 3, 4] and conflict["obligation"] == "B7", out + err)
    status, out, err = tests.tool("hierarchy", "--json", "--tree", "examples/University.java")
    found = json.loads(out)
    steps = [step["edit"] for step in found["tree"]["steps"]]
    tests.check("the steps to the tree", steps[:2] == ["merge n1 n4", "under n6 n1"] and len(steps) == 11, out[-400:])
    after = {node["number"] for node in found["tree"]["nodes"]}
    tests.check("the hierarchy after the steps", 4 not in after and len(after) < len(found["nodes"]))
    status, out, err = tests.tool("hierarchy", "--json", "examples/Bases.java", "examples/bases.edits")
    refused = json.loads(out)["refused"]
    tests.check("refused edits as JSON", status == 4 and [it["obligation"] for it in refused] == ["B6", "B1", "B8"], out + err)
    tests.one_line("hierarchy of a bad script", 69, tests.tool("hierarchy", "examples/Bases.java", tests.file("b", "merge n1\n")))
    tests.one_line("hierarchy of wrong words", 64, tests.tool("hierarchy", "-c", "0", "examples/Bases.java"))
    status, out, err = tests.tool("report", "--json", tests.file("boxes.java", BOXES))
    found = json.loads(out)
    box = next(it for it in found["classes"] if it["name"] == "Box")
    fits = [it["label"] for it in box["creations"]] == ["new Box@2", "new Box@2"] and box["members"][0]["label"] == "fld(Box.value)"
    tests.check("report --json", status == 0 and fits, out + err)
    slots = [[it["member"] for it in heads] for heads in found["shared_slots"]]
    tests.check("shared slots", slots == [["Box.put", "Dog.put"]], slots)
    tests.check("shared containers", [it["field"] for it in found["shared_containers"]] == ["Box.value"], found["shared_containers"])
    status, out, err = tests.tool("report", str(tests.folder / "boxes.java"))
    tests.check("slots and containers in the report", "slots of one name in" in out and "shared containers:" in out, out + err)


def check_explained(tests):
    for part in (check_explain_all, check_scripts, check_refusals, check_json):
        part(tests)
