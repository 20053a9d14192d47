"""Tests of the tools on everyday Java: what they say has the lines and names of the sources, and plans are taken in these."""
import json
import subprocess
import sys

from kaba_given import Everyday, bring
from kaba_plan import Reader
from kaba_tools import HERE, kaba
from workbench_browser import Workbench

ZOO = """import java.util.ArrayList;
import java.util.List;

public class Zoo {
    static class Box<T> {
        private T item;
        private int opened;

        Box(T item) {
            this.item = item;
        }

        Box(T item, int opened) {
            this(item);
            this.opened = opened;
        }

        T open() {
            opened++;
            return item;
        }
    }

    static class Animal {
        final String name;
        int legs;
        int wings;

        Animal(String name) {
            this.name = name;
        }

        void call(int times) {
            legs = times;
        }

        void call(String to) {
            wings = to.length();
        }
    }

    static <T> T never(T one) {
        return one;
    }

    public static void main(String[] args) {
        Animal dog = new Animal("Dog"), bird = new Animal("Bird");
        dog.call(4);
        bird.call("all");
        Box<Animal> cage = new Box<>(bird, 1);
        System.out.println(cage.open().name + dog.name);
        if (args.length > 1) {
            System.out.println(1 / (args.length - 2));
        }
        if (args.length > 0) {
            throw new IllegalStateException("too many: " + args[0]);
        }
    }
}
"""
IN_THE_WAY = """public class Mean {
    static double half(int n) {
        return n / 2.0;
    }

    public static void main(String[] args) {
        long sum = 3L;
        System.out.println(half((int) sum) + new java.util.Random().nextInt(6));
    }
}
"""


def tool(*words):
    done = subprocess.run([sys.executable, HERE / "tools" / words[0], *map(str, words[1:])], capture_output=True, text=True,
        stdin=subprocess.DEVNULL)
    return done.returncode, done.stdout, done.stderr


def check_report(tests, file):
    status, out, err = tool("report", file)
    tests.expect("a file of everyday Java has a report", status == 0, err)
    tests.expect("what is left out is told", f"{file}:42:5: left out: the generic method never, which nothing calls" in err, err)
    for line in (
        "class Animal, line 24",
        "class Box<Animal>, line 5",
        "    line 7, field opened: new Box<Animal>@50, Box<Animal>.Box(Animal,int).this, Box<Animal>.open.this",
        "    new Animal@47:22: field wings, method call(String)",
        "    1. field legs, method call(int)",
        f"  tools/propose {file} > Zoo.plan",
    ):
        tests.expect(f"the report has: {line}", line in out, out)
    tests.expect("and nothing of the text's own names", not any(word in out for word in ("Box_", "initBox", "callString")), out)
    status, out, err = tool("report", "--json", "--class", "Animal", file)
    found = json.loads(out)
    members = {(it["label"], it["line"], it["file"]) for it in found["classes"][0]["members"]}
    tests.expect("so is the JSON", ("dcl(Animal.call(String))", 37, str(file)) in members, members)


def check_plan(tests, file):
    status, out, err = tool("propose", file)
    tests.expect("a proposal is in the words of the sources",
        "class Dog: Animal.legs Animal.call(int) new Animal@Zoo.main.dog" in out and "keep Box<Animal>" in out, out + err)
    plan = file.with_name("zoo.plan")
    plan.write_text(out)
    status, script, err = tool("plan", file, plan)
    tests.expect("and is taken as a plan", status == 0 and "# for the text that tools/from-java writes of" in script, err)
    plan.write_text("class Dog: Animal.legs Animal.call(int) new Animal@47:22\n"
        "class Bird: Animal.wings Animal.call(String) new Animal@Zoo.main.bird\n")
    tests.expect("so is one by line and column", tool("plan", file, plan)[0] == 0)
    plan.write_text("class Dog: Animal.lugs\nclass Bird: new Animal@99\n")
    status, out, err = tool("plan", file, plan)
    tests.expect("what is not there is told in these words", status == 69
        and "no member Animal.lugs; do you mean Animal.legs?" in err
        and "no Animal is created in line 99, but in lines 47\n" in err, err)


def check_explain(tests, file, folder):
    status, out, err = tool("explain", "--everyday", file, "one")
    tests.expect("an exception is told with its text and place", status == 10
        and "nobody catches java.lang.IllegalStateException: too many: one" in out and f"{file}:56:13: in Zoo.main" in out, out)
    status, out, err = tool("explain", "--everyday", file, "one", "two")
    tests.expect("so is a fault", status == 10 and "fault DivZero" in out and f"{file}:53:13: in Zoo.main" in out, out)
    tests.expect("and a run that ends", tool("explain", "--everyday", file)[1] == f"{file}: brought in; the run comes to its end\n")
    other = folder / "Mean.java"
    other.write_text(IN_THE_WAY)
    status, out, err = tool("explain", "--everyday", other)
    tests.expect("what stands in the way has the status 65", status == 65, status)
    for line in (
        "2:12: double: there are no numbers with a fraction; count in whole parts, such as cents, in an int",
        "3:20: double: ",
        "7:9: long: write int for sum, where its values stay within -2147483648 and 2147483647",
        "7:20: long: write 3 without the L",
        "8:46: random numbers: each run would have other numbers; give a seed, as in new Random(42)",
    ):
        tests.expect(f"it is told: {line}", f"{other}:{line}" in out, out)
    tests.expect("with its line and a caret", "long sum = 3L;\n" + " " * 23 + "^\n" in out, out)


def check_folder(tests, folder):
    """A folder with two files: places have the file."""
    shop = folder / "shop"
    shop.mkdir()
    (shop / "Main.java").write_text("public class Main {\n    public static void main(String[] args) {\n"
        "        Till till = new Till(3);\n        System.out.println(till.all());\n    }\n}\n")
    (shop / "Till.java").write_text("class Till {\n    private int sum;\n\n    Till(int sum) {\n        this.sum = sum;\n    }\n\n"
        "    int all() {\n        return sum;\n    }\n}\n")
    status, out, err = tool("report", shop)
    tests.expect("a folder has a report", status == 0 and "class Till, Till.java:1" in out and "new Till@Main.java:3" in out,
        out + err)
    plan = folder / "shop.plan"
    plan.write_text("class Drawer: new Till@Main.java:3 new Till@Main.java:4\n")
    status, out, err = tool("plan", shop, plan)
    tests.expect("a plan names places with their files", status == 69 and err.count("\n") == 1
        and "no Till is created in line 4, but in Main.java:3" in err, err)


def check_names(tests, file):
    """Each member and creation of the text is found again by the words that are said of it."""
    found, said = bring(str(file))
    tests.expect("the program is brought in", isinstance(found, Everyday), said)
    lost = []
    for label in [*found.members, *found.variables]:
        kind = "variable " if label in found.variables else ""
        words = {word.text for word in Reader(found.inner_plan(f"class X: {found.said(kind + label)}\n".encode()).decode()).lines[0].things}
        lost += [] if label in words else [(label, found.said(label), words)]
    tests.expect("each name leads back", not lost, lost[:3])


def check_workbench(tests, file):
    """The page gets the sources, with what stands at their words."""
    with Workbench(file) as workbench:
        program = json.loads(workbench.ask("api/program")[1])
        lines = ["".join(piece[0] for piece in line) for line in program["source"]]
        tests.expect("the workbench shows the sources", "\n".join(lines) == ZOO.rstrip("\n"), lines[:5])
        spots = {(number, piece[0]): piece[1] for number, line in enumerate(program["source"], 1) for piece in line if piece[1:]}
        rows, columns = program["rows"], program["columns"]
        at = {(number, word, (rows if item[0] == "r" else columns)[int(item[1:])]["label"])
            for (number, word), items in spots.items() for item in items}
        for wanted in ((26, "legs", "fld(Animal.legs)"), (37, "call", "def(Animal.call(String))"), (47, "dog", "Zoo.main.dog"),
            (47, "Animal", "new Animal@47:48")):
            tests.expect(f"at its word stands {wanted}", wanted in at, sorted(at)[:20])
        tests.expect("names are those of the sources", {it["name"] for it in columns if it["holder"] == "Animal"}
            >= {"legs", "call(int)", "call(String)", "Animal"}, columns)
        plan = "class Dog: Animal.legs Animal.call(int) new Animal@Zoo.main.dog\n"
        status, text = workbench.ask("api/plan", {"plan": plan})
        tests.expect("a plan in these words makes edits", status == 200 and json.loads(text)["edits"], text)


APART = """import java.util.*;

public class Two {
    private final List<String> names = new ArrayList<>();
    private final List<String> shared = new ArrayList<>();

    List<String> all() {
        return shared;
    }

    public static void main(String[] args) {
        Two two = new Two();
        two.names.add("a");
        Map<String, Integer> counts = new TreeMap<>();
        counts.merge("b", 2, Integer::sum);
        for (Map.Entry<String, Integer> entry : counts.entrySet()) {
            two.shared.add(entry.getKey() + entry.getValue());
        }
        Random random = new Random(42);
        System.out.println(two.names + "" + two.all() + counts + random.nextInt(100) + random.nextInt() + random.nextBoolean());
    }
}
"""


def check_apart(tests, folder):
    """Containers that meet no other have classes of their own; what is printed is the same."""
    file, text = folder / "Two.java", folder / "two.txt"
    file.write_text(APART)
    status, out, err = tool("from-java", "--apart", file, "-o", text)
    written = text.read_text() if text.exists() else ""
    tests.expect("--apart brings in", status == 0, err)
    tests.expect("a field's containers have a class", "class ArrayList_String_names " in written
        and "class TreeMap_String_Integer_counts " in written, err)
    tests.expect("what is given elsewhere shares one", "_shared" not in written and "class ArrayList_String " in written, err)
    got = kaba("run", str(text), "1000000")
    tests.expect("it prints the same", got[:2] == (0, b"[a][b2]{b=2}30234785527true\n"), got)


def check_given(tests, folder):
    file = folder / "Zoo.java"
    file.write_text(ZOO)
    check_names(tests, file)
    check_names(tests, HERE / "examples" / "everyday" / "Events.java")
    check_report(tests, file)
    check_plan(tests, file)
    check_explain(tests, file, folder)
    check_folder(tests, folder)
    check_apart(tests, folder)
    check_workbench(tests, file)
