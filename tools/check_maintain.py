"""Tests of the way from a plan to a patch: tools/plan, tools/propose, tools/patch and tools/check-loop."""
import shutil
import subprocess
from pathlib import Path

# Two kinds of jobs in one class, with comments, modifiers and a layout of their own.
SHOP = """/* Kept: the licence. */

// A till.
public class Shop {
  private static int made; // how many
  static String log;

  private int total;   // cents

  /** Adds. */
  final void add(Item item) {
    total += item.cents;
    made++;
    note("add " + item.name());
  }

  private static void note(String text) {
    if (log == null) log = ""; else log += "; ";
    log += text;
  }

  public static void main(String[] args) {
    Shop shop = new Shop();
    Item tea = new Item();
    tea.call("tea", 300);
    tea.brew();
    Item cup = new Item();
    cup.call("cup", 500);
    cup.fire(3);
    shop.add(tea); shop.add(cup);
    System.out.println(shop.total + " " + made + " " + log);
    System.out.println(tea.strength() + cup.heat);
  }
}

/* All that is sold. */
final class Item
{
\tprivate String name;  // its name
\tint cents;
\tint never; // goes
\tprivate int leaves; public int heat; // two on a line

\tvoid call(final String name, int cents) {
\t\tthis.name = name;
\t\tthis.cents = cents;
\t}
\tpublic final String name() { return name; }
\t// of tea
\tfinal void brew() { leaves++; strength(); }
\tint strength() { return leaves * 2; }
\tprotected void fire(int n) { for (int k = 0; k < n; k++) heat += k + 1; }
\t// the end
}
"""

# What stands in the patched text, and what does not.
PATCHED = [
    "/* Kept: the licence. */\n",
    "// A till.\npublic class Shop {\n  static int made; // how many\n",
    "class ShopObject {\n  int total;   // cents\n\n  /** Adds. */\n  final void add(Item item) {\n",
    "    total += item.cents;\n    Shop.made = Shop.made + 1;\n    Shop.note(\"add \" + item.name());\n",
    "  static void note(String text) {\n    if (log == null) log = \"\"; else log += \"; \";\n",
    "/* All that is sold. */\nabstract class Item\n{\n\tprivate String name;  // its name\n",
    "\tvoid call(final String name, int cents) {\n\t\tthis.name = name;\n",
    "\tpublic final String name() { return name; }\n\t// the end\n}\n",
    "class Tea extends Item {\n\tprivate int leaves;\n\t// of tea\n\tfinal void brew() { leaves++; strength(); }\n",
    "class Cup extends Item {\n\tpublic int heat; // two on a line\n\tprotected void fire(int n) { ",
    "    Tea tea = new Tea();\n",
    "    shop.add(tea); shop.add(cup);\n",
]

SHOP_PLAN = """# The lines end as in Windows.\r
class Tea: Item.leaves, Item.brew()\r
  Item.strength new Item@Shop.main.tea # of tea\r
class Cup: Item.heat Item.fire() new Item@27\r
keep Item\r
drop empty\r
"""

# A plan, and where it is wrong: the line, and a part of the sentence.
BAD_PLANS = [
    ("class Tea: Item.leavs\n", 1, "do you mean Item.leaves?"),
    ("\nclass Tea: Itm.leaves\n", 2, "no class Itm; do you mean Item?"),
    ("class Tea: leaves\n", 1, "write its class before it, such as Item.leaves"),
    ("class Tea: Item.never\n", 1, "nothing needs `Item.never`"),
    ("class Tea: Shop.made\n", 1, "`Shop.made` is static"),
    ("class Tea: new Item@25\n", 1, "no Item is created in line 25, but in lines 24, 27"),
    ("class Tea: new Item@Shop.main.pot\n", 1, "but into Shop.main.cup, Shop.main.tea"),
    ("class Tea: new Item\n", 1, "lacks its place"),
    ("class Tea: Item.leaves\nclass Tea: Item.heat\n", 2, "stands in line 1 too"),
    ("class Tea: Item.leaves\nclass Pot: Item.leaves\n", 2, "is in class Tea of line 1"),
    ("class Tea Item.leaves\n", 1, "a name and a colon"),
    ("class Tea:\n", 1, "names nothing"),
    ("class Tea: Item.leaves\n", 1, "stands within Item: above it declaration Item.strength, below it body Item.brew"),
    ("keep Item\nonly Item\n", 2, "to stay whole in one line"),
    ("keep Itme\n", 1, "do you mean Item?"),
    ("drop all\n", 1, "drop empty"),
    ("clas Tea: Item.leaves\n", 1, "no line begins with `clas`"),
    (b"# \xff\n", 1, "not UTF-8"),
]

LINE_OF_NEVER = 1 + SHOP[: SHOP.index("int never")].count("\n")

# A plan that is refused: the line, a part of the sentence, and the obligation.
REFUSED_PLANS = [
    ("class tea: Item.leaves Item.brew Item.strength new Item@24\n", 1, "the name tea is", "(B8)"),
    ("\nclass class:\n Item.leaves Item.brew Item.strength new Item@24\n", 2, "a keyword", "(B8)"),
]

TWO_PARTS = """class Main {
  public static void main(String[] args) {
    Job call = new Job();
    call.title = "call";
    call.owner = "Ada";
    call.remind();
    Job pump = new Job();
    pump.title = "pump";
    pump.period = 4;
    pump.tick();
  }
}
class Job {
  String title;
  String owner;
  int period;
  void remind() { System.out.println(owner + ": " + title); }
  void tick() { period = period + 1; }
}
"""

PROPOSED = """# A plan for FILE. Its objects carry 4 members that they do not need, after it 0.

# Job: its objects carry 4 members of it that they do not need, after this 0
class Call: Job.owner Job.remind() new Job@Main.main.call
class Pump: Job.period Job.tick() new Job@Main.main.pump

# whole as they are
keep Job
drop empty
"""


def check_plans(tests):
    shop = tests.file("Shop.java", SHOP)
    for text, number, sentence in BAD_PLANS:
        plan = tests.file("bad.plan", text)
        status, out, err = tests.tool("plan", shop, plan)
        holds = (status, out) == (69, "") and f"{plan}:{number}: " in err and sentence in err
        tests.check(f"the plan {text!r}: {status}", holds, err)
    for text, number, sentence, rule in REFUSED_PLANS:
        plan = tests.file("refused.plan", text)
        status, out, err = tests.tool("plan", shop, plan)
        holds = (status, out) == (4, "") and f"{plan}:{number}: " in err and sentence in err and rule in err
        tests.check(f"the plan {text!r}: {status}", holds, err)
    tests.one_line("plan of no plan", 66, tests.tool("plan", shop, "missing.plan"))
    tests.one_line("plan of no program", 66, tests.tool("plan", "missing.java", tests.file("a.plan", "")))
    status, out, err = tests.tool("plan", "examples/Shapes.java", tests.file("a.plan", "keep Cube\n"))
    tests.check("plan of a program with an interface", status == 0 and "type n9 Cube" in out, out + err)
    tests.one_line("plan without words", 64, tests.tool("plan"))
    status, out, err = tests.tool("plan", "examples/Tasks.java", tests.file("a.plan", "class record: Job.owner\n"))
    tests.check("plan with a name that javac refuses", (status, out == "", "a.plan: warning: javac" in err) == (0, False, True), err)


def check_proposals(tests):
    file = tests.file("Two.java", TWO_PARTS)
    status, out, err = tests.tool("propose", file)
    tests.check("propose", (status, out, err) == (0, PROPOSED.replace("FILE", file), ""), out + err)
    tests.one_line("propose of no class", 1, tests.tool("propose", file, "Nowhere"))
    status, out, err = tests.tool("propose", "examples/Shapes.java")
    tests.check("propose of a program with an interface", status == 0 and "keep Cube" in out, out + err)
    status, out, err = tests.tool("propose", "examples/loop.java")
    tests.check("propose without classes to part", status == 0 and "No class can be parted" in out, out + err)


def check_patches(tests):
    shop, plan = tests.file("Shop.java", SHOP), tests.file("shop.plan", SHOP_PLAN)
    status, script, err = tests.tool("plan", shop, plan)
    tests.check("plan with Windows line ends", (status, err) == (0, ""), err)
    edits, new = tests.file("shop.edits", script), str(tests.folder / "made" / "Shop.java")
    Path(new).parent.mkdir()
    status, diff, err = tests.tool("patch", "-o", new, shop, edits)
    tests.check(f"patch: {status}", status == 0 and diff.startswith(f"--- a/{shop}\n+++ b/{shop}\n@@ "), diff + err)
    said = f"not written, since nothing needs it: field Item.never, line {LINE_OF_NEVER}\n"
    tests.check("patch does not say what is not written", said in err, err)
    text = Path(new).read_text() if status == 0 else ""
    for part in PATCHED:
        tests.check(f"the patched text does not have {part!r}", part in text, text)
    if shutil.which("patch") and status == 0:
        old = tests.file("Old.java", SHOP)
        subprocess.run(["patch", "-s", old], input=diff.encode(), check=False)
        tests.check("the diff does not lead to the text", Path(old).read_text() == text)
    if shutil.which("javac") and status == 0:
        done = subprocess.run(["javac", "-d", str(tests.folder / "made"), new], capture_output=True)
        tests.check("javac refuses the patched text", done.returncode == 0, done.stderr.decode())
    tests.one_line("patch of no script", 66, tests.tool("patch", shop, "missing.edits"))
    tests.one_line("patch of a bad script", 69, tests.tool("patch", shop, tests.file("bad.edits", "merge n1\n")))
    tests.one_line("patch without words", 64, tests.tool("patch"))


def check_loop(tests):
    status, out, err = tests.tool("check-loop", "examples/Points.java", "examples/java/Shop.java")
    holds = status == 0 and "left out: Shop: " in out and out.endswith("\n1 passed, 0 failed\n")
    tests.check("check-loop", holds, out + err)
    tests.one_line("check-loop of no file", 66, tests.tool("check-loop", "missing.java"))
