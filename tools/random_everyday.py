"""Random programs of everyday Java for tools/compare-java --everyday: expressions with effects in every part, statements of
all kinds, small classes, collections and exceptions. Each ends, or meets a fault."""
import random

CLASSES = """
    static class Cell {
        int n;
        final String name;
        Cell next;

        Cell(int n) {
            this(n, "c" + n);
        }

        Cell(int n, String name) {
            this.n = n;
            this.name = name;
        }

        int add(int k) {
            System.out.print("+" + k);
            return n += k;
        }

        @Override
        public String toString() {
            return name + ":" + n;
        }
    }

    enum Kind { ONE, TWO, THREE }

    interface Step {
        int of(int a);
    }

    static int calls;

    static int f(int a, int b) {
        calls++;
        System.out.print("f");
        return a * 3 - b;
    }

    static boolean g(int a) {
        System.out.print("g");
        return (a & 1) == 0;
    }

    static Cell c(int n) {
        System.out.print("c");
        return new Cell(n);
    }
@throwing@
"""
THROWING = """
    static int risky(int n) {
        if (n % 3 == 0) {
            throw new IllegalStateException("risky " + n);
        }
        return n;
    }
"""


class Everyday:
    """The text of one random program."""

    def __init__(self, seed, name):
        self.chance, self.name, self.loops, self.fresh = random.Random(seed), name, 0, 0
        self.throws = self.chance.random() < 0.4

    def pick(self, *forms):
        return self.chance.choice(forms)()

    def small(self):
        return str(self.chance.randint(0, 5))

    def number(self, depth=3):
        """An int expression."""
        if depth == 0:
            return self.chance.choice(["i", "j", "x", "a[i & 3]", "cell.n", self.small(), "calls", "list.size()",
                "boxed"])
        less = depth - 1
        forms = [
            lambda: f"({self.number(less)} {self.chance.choice('+-*&|^')} {self.number(less)})",
            lambda: self.chance.choice(["i++", "++i", "j--", "--j", "x++", "a[1]++", "--a[2]", "cell.n++", "boxed++"]),
            lambda: f"({self.chance.choice(['i', 'j', 'x', 'a[0]', 'cell.n'])} {self.chance.choice(['=', '+=', '-=', '^='])} {self.number(less)})",
            lambda: f"f({self.number(less)}, {self.number(less)})",
            lambda: f"({self.test(less)} ? {self.number(less)} : {self.number(less)})",
            lambda: f"a[{self.number(less)} & 3]",
            lambda: f"{self.cell(less)}.add({self.number(less)})",
            lambda: f"{self.text(less)}.length()",
            lambda: f"step.of({self.number(less)})",
            lambda: f"list.get(({self.number(less)} & 7) % list.size())",
            lambda: f"Math.max({self.number(less)}, {self.number(less)})",
            lambda: f"switch ({self.number(less)} & 3) {{ case 0 -> {self.number(less)}; case 1, 2 -> {self.number(less)}; default -> {self.number(less)}; }}",
            lambda: f"(int) (char) (0 + {self.number(0)})",
        ]
        if self.throws:
            forms.append(lambda: f"risky({self.number(less)})")
        text = self.chance.choice(forms)()
        return f"({text})" if text.startswith("switch") else text

    def test(self, depth=2):
        if depth == 0:
            return self.chance.choice(["flag", "i < j", "cell.next == null", "x != 0"])
        less = depth - 1
        return self.pick(
            lambda: f"({self.test(less)} && {self.test(less)})", lambda: f"({self.test(less)} || {self.test(less)})",
            lambda: f"!{self.test(less)}" if less == 0 and False else f"!({self.test(less)})", lambda: f"g({self.number(less)})",
            lambda: f"({self.number(less)} < {self.number(less)})", lambda: f"(flag = {self.test(less)})",
            lambda: f"({self.test(less)} ^ {self.test(less)})", lambda: f"{self.text(less)}.equals({self.text(less)})")

    def text(self, depth=2):
        if depth == 0:
            return self.chance.choice(['s', '"ab"', "cell.name", '"x"'])
        less = depth - 1
        return self.pick(
            lambda: f"({self.text(less)} + {self.number(less)})", lambda: f"(s += {self.number(less)} % 10)", lambda: f"(\"\" + {self.cell(less)})",
            lambda: f"({self.test(less)} ? {self.text(less)} : {self.text(less)})", lambda: f"{self.text(0)}.substring({self.number(less)} & 1)",
            lambda: f"String.valueOf(0 + {self.number(less)})", lambda: f"({self.text(less)} + 'c' + {self.number(less)})")

    def cell(self, depth=1):
        if depth == 0:
            return "cell"
        return self.pick(lambda: f"new Cell({self.number(depth - 1)})", lambda: f"c({self.number(depth - 1)})",
            lambda: "cell",
                         lambda: f"({self.test(depth - 1)} ? cell : c({self.number(0)}))")

    def statement(self, depth):
        simple = [
            lambda: f"x = {self.number()};", lambda: f"a[{self.number(1)} & 3] {self.chance.choice(['=', '+=', '*='])} {self.number(2)};",
            lambda: f"System.out.println(0 + {self.number()});", lambda: f"System.out.println({self.text()});", lambda: f"flag = {self.test()};",
            lambda: f"cell.n -= {self.number(2)};", lambda: f"list.add({self.number(2)});", lambda: f"cell = {self.cell(2)};",
            lambda: f"if (s.length() > 40) s = {self.text(1)}; else s += {self.number(1)} % 7;", lambda: f"f({self.number(2)}, {self.number(2)});",
            lambda: f"counts.merge({self.text(1)}, {self.number(1)}, Integer::sum);", lambda: "for (int e : a) x += e;",
        ]
        if depth == 0 or self.chance.random() < 0.4:
            return self.chance.choice(simple)()
        return self.pick(self.choice(depth), self.loop(depth), self.switch(depth), self.tried(depth))

    def block(self, depth):
        return "{ " + " ".join(self.statement(depth) for _ in range(self.chance.randint(1, 3))) + " }"

    def choice(self, depth):
        return lambda: f"if ({self.test()}) {self.block(depth - 1)}" + (f" else {self.block(depth - 1)}"
            if self.chance.random() < 0.5 else "")

    def loop(self, depth):
        def written():
            self.fresh += 1
            k, label = f"k{self.fresh}", f"out{self.fresh}"
            leave = self.chance.choice([f"if ({self.test(1)}) break {label};",
                f"if ({self.test(1)}) continue {label};", f"if ({self.test(1)}) break;", ""])
            inner = f"for (int m{self.fresh} = 0; m{self.fresh} < 2; m{self.fresh}++) {{ {self.statement(0)} {leave} }}"
            return f"{label}: for (int {k} = 0, q{k} = 3; {k}++ < 3 && {self.test(1)} | q{k}-- > 0; ) {{ {self.statement(depth - 1)} {inner} }}"
        return written

    def switch(self, depth):
        def written():
            ends = [self.chance.choice(["break;", ""]) for _ in range(3)]
            cases = " ".join(f"case {k}: {self.statement(depth - 1)} {ends[k]}" for k in range(3))
            kind = f"switch (Kind.values()[{self.number(1)} & 1]) {{ case ONE: {self.statement(0)} break; case TWO: {self.statement(0)} default: x++; }}"
            return f"switch ({self.number(2)} & 3) {{ {cases} default: {kind} }}"
        return written

    def tried(self, depth):
        if not self.throws:
            return self.choice(depth)
        last = f" finally {self.block(0)}" if self.chance.random() < 0.5 else ""
        return lambda: f"try {self.block(depth - 1)} catch (IllegalStateException e) {{ System.out.println(e.getMessage()); }}{last}"

    def source(self):
        body = "\n        ".join(self.statement(2) for _ in range(self.chance.randint(5, 9)))
        return f"""import java.util.*;

public class {self.name} {{{CLASSES.replace("@throwing@", THROWING if self.throws else "")}
    public static void main(String[] args) {{
        int i = args.length, j = 7, x = 2;
        int[] a = {{4, 3, 2, 1}};
        boolean flag = i > 0;
        String s = "s";
        Cell cell = new Cell(5);
        Integer boxed = 3;
        List<Integer> list = new ArrayList<>(Arrays.asList(8, 9));
        Map<String, Integer> counts = new TreeMap<>();
        Step step = n -> n + 1;
        {body}
        System.out.println(i + " " + j + " " + x + " " + flag + " " + s + " " + cell + " " + boxed + " " + Arrays.toString(a));
        System.out.println(list + " " + counts + " " + calls);
    }}
}}
"""
