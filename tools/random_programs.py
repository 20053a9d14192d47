"""Random programs of the language, for tools/compare-java and tools/compare-edits."""
import random


class Class:
    """A class of the program: the interfaces that it names, its fields with their types and its methods with
    result and parameters, what it inherits among them, and those that it declares itself."""

    def __init__(self, name, parent):
        self.name, self.parent, self.interfaces = name, parent, []
        self.fields = dict(parent.fields) if parent else {}
        self.methods = dict(parent.methods) if parent else {}
        self.own_fields, self.own_methods = [], []

    def is_below(self, name):
        above = [*self.interfaces, *([self.parent] if self.parent else [])]
        return self.name == name or any(a_type.is_below(name) for a_type in above)

    def heading(self):
        """The line that begins its text."""
        extends = f" extends {self.parent.name}" if self.parent else ""
        named = ", ".join(interface.name for interface in self.interfaces)
        return f"class {self.name}{extends}" + (f" implements {named}" if named else "") + " {"


class Program:
    """A random program that the rules of types accept. Every name is used once in it."""

    # The least and the most that it has: classes, static methods of main's class, fields and methods of each class, and
    # statements of main.
    CLASSES, STATICS, FIELDS, METHODS, STATEMENTS = (2, 5), (1, 3), (1, 4), (1, 3), (6, 14)

    def __init__(self, seed, prefix):
        self.random = random.Random(seed)
        self.prefix, self.names = prefix, 0
        self.classes, self.statics = [], {}
        self.scope, self.this, self.in_main, self.left = [], None, False, 0

    def fresh(self, letter):
        self.names += 1
        return f"{letter}{self.names}"

    def pick(self, *of):
        return self.random.choice(of)

    def chance(self, of):
        return self.random.random() < of

    def types(self):
        """The types that the program declares."""
        return self.classes

    def some_type(self):
        names = [c.name for c in self.types()]
        return self.pick("int", "int", "boolean", "char", "String", "int[]", *names, *[n + "[]" for n in names])

    def signature(self):
        result = self.pick("int", "boolean", "char", "String", "void", *[c.name for c in self.types()])
        return result, [self.some_type() for _ in range(self.random.randint(0, 3))]

    def class_of(self, name):
        return next((c for c in self.types() if c.name == name), None)

    def fits(self, given, wanted):
        below = self.class_of(given)
        return given == wanted or wanted == "int" and given == "char" or bool(below) and below.is_below(wanted)

    # the whole text

    def text(self):
        for n in range(self.random.randint(*self.CLASSES)):
            self.declare(self.new_class(n))
        for _ in range(self.random.randint(*self.STATICS)):
            self.statics[self.fresh("s")] = self.signature()
        lines = []
        for c in self.classes:
            lines.append(c.heading())
            lines += [f"  {kind} {name};" for name, kind in c.own_fields]
            self.this = c
            lines += self.maker(c)
            for name, signature in c.own_methods:
                lines += self.method(self.modifier(name), name, signature)
            lines.append("}")
        self.this = None
        lines.append(f"class {self.prefix} {{")
        lines += self.main_fields()
        for name, signature in self.statics.items():
            lines += self.method("static ", name, signature)
        self.scope, self.in_main, self.left = [("args", "String[]")], True, 40
        lines.append("  static void main(String[] args) {")
        lines += self.main_start()
        lines += self.statements(2, self.random.randint(*self.STATEMENTS))
        return "\n".join(lines + ["  }", "}", ""])

    def new_class(self, number):
        return Class(f"{self.prefix}C{number}", self.pick(None, *self.classes, *self.classes))

    def modifier(self, method):
        """What stands before the method of a class."""
        return ""

    # what a kind of programs may add (random_makers.py)

    def maker(self, c):
        """The lines of the constructor of a class, where it writes one."""
        return []

    def main_fields(self):
        """The lines of the fields of main's class."""
        return []

    def main_start(self):
        """The lines with which main begins."""
        return []

    def may_make(self, c):
        """Whether an object of a class may be made where the text is."""
        return True

    def arguments_for(self, name, depth):
        """The text between the brackets of a creation."""
        return ""

    def declare(self, c):
        self.classes.append(c)
        for _ in range(self.random.randint(*self.FIELDS)):
            name, kind = self.fresh("f"), self.some_type()
            c.fields[name] = kind
            c.own_fields.append((name, kind))
        for _ in range(self.random.randint(*self.METHODS)):
            inherited = [m for m in c.parent.methods if m not in dict(c.own_methods)] if c.parent else []
            if inherited and self.chance(0.5):
                name = self.pick(*inherited)
                signature = c.parent.methods[name]
            else:
                name, signature = self.fresh("m"), self.signature()
            c.methods[name] = signature
            c.own_methods.append((name, signature))

    def method(self, modifier, name, signature):
        result, kinds = signature
        self.scope = [(self.fresh("p"), kind) for kind in kinds]
        self.in_main, self.left = False, 12
        params = ", ".join(f"{kind} {param}" for param, kind in self.scope)
        lines = [f"  {modifier}{result} {name}({params}) {{"] + self.statements(2, self.random.randint(1, 4))
        if result != "void":
            lines.append(f"    return {self.value(result, 2)};")
        return lines + ["  }"]

    # what stands in scope

    def variables(self, kind):
        found = [name for name, given in self.scope if self.fits(given, kind)]
        if self.this:
            found += ["this." + name for name, given in self.this.fields.items() if given == kind]
        return found

    def objects(self):
        found = [(name, self.class_of(kind)) for name, kind in self.scope if self.class_of(kind)]
        return found + ([("this", self.this)] if self.this else [])

    def arrays(self):
        return [(name, kind[:-2]) for name, kind in self.scope if kind.endswith("[]") and name != "args"]

    def call(self, name, kinds, depth):
        return f"{name}({', '.join(self.value(kind, depth) for kind in kinds)})"

    # values

    def value(self, kind, depth):
        """An expression that fits the type, with at most so many levels."""
        known = self.variables(kind)
        if known and (depth <= 0 or self.chance(0.35)):
            return self.pick(*known)
        if depth > 0:
            found = self.member(kind, depth) if self.chance(0.4) else None
            if found:
                return found
            calls = [(name, kinds) for name, (result, kinds) in self.statics.items() if result == kind]
            if calls and self.in_main and self.chance(0.1):
                return self.call(*self.pick(*calls), depth - 1)
            elements = [name for name, element in self.arrays() if element == kind]
            if elements and self.chance(0.3):
                return f"{self.pick(*elements)}[{self.place(depth - 1)}]"
        if kind.endswith("[]"):
            return self.array(kind[:-2])
        return {"int": self.number, "boolean": self.truth, "char": self.letter, "String": self.string}.get(kind, lambda d: self.made(kind, d))(depth)

    def member(self, kind, depth):
        objects = self.objects()
        self.random.shuffle(objects)
        for name, c in objects:
            fields = [f for f, given in c.fields.items() if given == kind]
            if fields and self.chance(0.6):
                return f"{name}.{self.pick(*fields)}"
            calls = [(m, kinds) for m, (result, kinds) in c.methods.items() if result == kind]
            if calls and (self.in_main or self.chance(0.12)):
                m, kinds = self.pick(*calls)
                return self.call(f"{name}.{m}", kinds, depth - 1)
        return None

    def place(self, depth):
        return self.pick("0", "0", "0", "1", "1", "2", "(3 & 1)") if self.chance(0.85) else self.value("int", max(depth, 0))

    def array(self, element):
        if self.chance(0.08):
            return "null"
        kinds = [c.name for c in self.types() if c.is_below(element)] or [element]
        size = self.pick("0", "1", "2", "3", "4", "8") if self.chance(0.97) else self.value("int", 1)
        return f"(new {self.pick(*kinds)}[{size}])"

    def made(self, kind, depth):
        near = [name for name, c in self.objects() if c.is_below(kind) or self.class_of(kind).is_below(c.name)]
        if near and depth > 0 and self.chance(0.2):
            return f"(({kind}) {self.pick(*near)})"
        classes = [c.name for c in self.classes if c.is_below(kind) and self.may_make(c)]
        return "null" if self.chance(0.1) or not classes else self.creation(self.pick(*classes), depth)

    def creation(self, name, depth):
        return f"(new {name}({self.arguments_for(name, depth)}))"

    def number(self, depth):
        form = self.random.randint(0, 9) if depth > 0 else 9
        if form <= 3:
            op = self.pick("+", "-", "*", "&", "|", "^", "<<", ">>", ">>>", "/", "%")
            right = self.value(self.pick("int", "int", "char"), depth - 1)
            if op in "/%" and self.chance(0.85):
                right = f"({right} | 1)"
            return f"({self.value(self.pick('int', 'int', 'char'), depth - 1)} {op} {right})"
        if form == 4:
            return f"({self.pick('-', '~', '+')}({self.value('int', depth - 1)}))"
        if form == 5:
            return f"((int) ({self.value('char', depth - 1)}))"
        if form == 6:
            return f"({self.value('String', depth - 1)}).length()"
        if form == 7 and self.arrays():
            return f"{self.pick(*self.arrays())[0]}.length"
        if self.chance(0.07):
            return "(-2147483648)"
        return str(self.pick(0, 1, 2, 3, 5, 7, 10, 31, 32, 33, 255, 65535, 65536, 1000003, 2147483647, self.random.randint(0, 99)))

    def truth(self, depth):
        form = self.random.randint(0, 7) if depth > 0 else 7
        if form <= 2:
            left, mark = self.value(self.pick("int", "char"), depth - 1), self.pick("<", ">", "<=", ">=", "==", "!=")
            return f"({left} {mark} {self.value(self.pick('int', 'char'), depth - 1)})"
        if form == 3:
            return f"({self.value('boolean', depth - 1)} {self.pick('&&', '||', '==', '!=')} {self.value('boolean', depth - 1)})"
        if form == 4:
            return f"(!({self.value('boolean', depth - 1)}))"
        if form == 5:
            return f"({self.value('String', depth - 1)}).equals({self.value('String', depth - 1)})"
        if form == 6 and self.objects():
            name, c = self.pick(*self.objects())
            other, d = self.pick(*self.objects())
            if c.is_below(d.name) or d.is_below(c.name):
                return self.pick(f"({name} == {other})", f"({name} != {other})", f"({name} instanceof {d.name})")
            return f"({name} == null)"
        return self.pick("true", "false")

    def letter(self, depth):
        form = self.random.randint(0, 4) if depth > 0 else 4
        if form == 0:
            return f"((char) ({self.value('int', depth - 1)}))"
        if form == 1:
            return f'"hello".charAt({self.place(depth - 1)})'
        return self.pick("'a'", "'Z'", "'0'", "'\\n'", "'\\\\'", "' '", "'\u00e9'")

    def string(self, depth):
        form = self.random.randint(0, 5) if depth > 0 else 5
        if form <= 2:
            return f"({self.value('String', depth - 1)} + {self.value(self.pick('int', 'char', 'boolean', 'String'), depth - 1)})"
        if form == 3:
            return f"({self.value(self.pick('int', 'char', 'boolean'), depth - 1)} + {self.value('String', depth - 1)})"
        return self.pick('"x"', '""', '"a\\tb"', '"\\"q\\""', '"caf\u00e9"', '"\U0001d11e"')

    # statements

    def statements(self, level, count):
        kept = len(self.scope)
        lines = []
        for _ in range(count):
            self.left -= 1
            lines += ["  " * level + line for line in self.statement(level)]
        del self.scope[kept:]
        return lines

    def inner(self, most):
        return self.statements(1, self.random.randint(1, most))

    def statement(self, level):
        form = self.random.randint(0, 15) if self.left > 0 else 0
        if 3 <= form <= 6:
            kind = self.pick("int", "int", "boolean", "char", "String", "int[]", *[c.name for c in self.types()] * 2, self.pick(*self.types()).name + "[]")
            name, value = self.fresh("v"), self.value(kind, 2)
            self.scope.append((name, kind))
            return [f"{kind} {name} = {value};"]
        if 7 <= form <= 9:
            return self.assignment()
        if form == 10:
            lines = [f"if ({self.value('boolean', 2)}) {{"] + self.inner(3)
            if self.chance(0.3):
                lines += [f"}} else if ({self.value('boolean', 2)}) {{"] + self.inner(2)
            if self.chance(0.5):
                lines += ["} else {"] + self.inner(3)
            return lines + ["}"]
        if form == 11:
            name = self.fresh("i")
            self.scope.append((name, "int"))
            lines = [f"for (int {name} = 0; {name} < {self.random.randint(1, 4)}; {name}++) {{"] + self.inner(3)
            if self.chance(0.3):
                lines += [f"  if ({self.value('boolean', 1)}) {{ {self.pick('break', 'continue')}; }}"]
            self.scope.pop()
            return lines + ["}"]
        if form == 12:
            name = self.fresh("i")
            self.scope.append((name, "int"))
            lines = [f"int {name} = {self.random.randint(0, 3)};", f"while ({name} > 0 && {self.value('boolean', 1)}) {{", f"  {name} = {name} - 1;"]
            return lines + self.inner(3) + ["}"]
        if form >= 13 and (self.in_main or self.chance(0.15)):
            return [self.act() + ";"]
        return [f"System.out.{self.pick('println', 'println', 'print')}({self.value(self.pick('int', 'boolean', 'char', 'String'), 2)});"]

    def assignment(self):
        targets = [(name, kind) for name, kind in self.scope if name != "args" and not name.startswith("i")]
        for name, c in self.objects():
            targets += [(f"{name}.{field}", kind) for field, kind in c.fields.items()]
        targets += [(f"{name}[{self.place(1)}]", element) for name, element in self.arrays()]
        if not targets:
            return [";"]
        target, kind = self.pick(*targets)
        if kind == "int" and target.isalnum() and self.chance(0.4):
            if self.chance(0.7):
                return [f"{target} {self.pick('+=', '-=', '*=', '/=', '%=')} {self.value('int', 2)};"]
            return [f"{target}{self.pick('++', '--')};"]
        return [f"{target} = {self.value(kind, 2)};"]

    def act(self):
        calls = [(f"{name}.{m}", kinds) for name, c in self.objects() for m, (_, kinds) in c.methods.items()]
        if self.this and self.this.parent:
            calls += [(f"super.{m}", kinds) for m, (_, kinds) in self.this.parent.methods.items()]
        if self.in_main:
            calls += [(name, kinds) for name, (_, kinds) in self.statics.items()]
        return self.call(*self.pick(*calls), 1) if calls else "System.out.println()"


class Interface(Class):
    """An interface of the program: the methods that it inherits and those that it declares have no bodies."""

    def __init__(self, name, interfaces):
        super().__init__(name, None)
        self.interfaces = interfaces
        for above in interfaces:
            self.methods.update(above.methods)

    def heading(self):
        named = ", ".join(above.name for above in self.interfaces)
        return f"interface {self.name}" + (f" extends {named}" if named else "") + " {"


class ProgramWithInterfaces(Program):
    """A random program that declares interfaces too, as the types of variables, elements, tests and casts."""

    def __init__(self, seed, prefix):
        super().__init__(seed, prefix)
        self.interfaces = []

    def types(self):
        return [*self.classes, *self.interfaces]

    def text(self):
        for n in range(self.random.randint(1, 3)):
            self.declare_interface(Interface(f"{self.prefix}I{n}", self.some_interfaces()))
        classes = super().text()
        lines = [line for interface in self.interfaces for line in self.interface_lines(interface)]
        return "\n".join(lines) + "\n" + classes

    def some_interfaces(self):
        return self.random.sample(self.interfaces, self.random.randint(0, min(2, len(self.interfaces))))

    def declare_interface(self, interface):
        self.interfaces.append(interface)
        for _ in range(self.random.randint(0, 2)):
            name, signature = self.fresh("m"), self.signature()
            interface.methods[name] = signature
            interface.own_methods.append((name, signature))

    def interface_lines(self, interface):
        heads = []
        for name, (result, kinds) in interface.own_methods:
            params = ", ".join(f"{kind} {self.fresh('p')}" for kind in kinds)
            heads.append(f"  {result} {name}({params});")
        return [interface.heading(), *heads, "}"]

    def new_class(self, number):
        c = super().new_class(number)
        c.interfaces = self.some_interfaces()
        return c

    def declare(self, c):
        super().declare(c)
        for interface in c.interfaces:
            for name, signature in interface.methods.items():
                if name not in c.methods:
                    c.methods[name] = signature
                    c.own_methods.append((name, signature))

    def modifier(self, method):
        return "public " if any(method in interface.methods for interface in self.interfaces) else ""
