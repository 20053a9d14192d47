"""Random programs with constructors, for tools/compare-java: written and implied ones, and creations in many places.

An object that a constructor makes is of a class that stands before its own, and what else a constructor does, and most
methods, ends when the fuel of the program, a field of main's class, is used: so few programs run for long.
"""
from random_programs import Program, ProgramWithInterfaces

FUEL = 80
SHOWN = ("int", "boolean", "char", "String")
LEAST = {"int": "0", "boolean": "false", "char": "'-'", "String": '"-"'}


class WithMakers:
    """A kind of random programs, with constructors too."""

    def __init__(self, seed, prefix):
        super().__init__(seed, prefix)
        self.makers = {}  # of each class that has a constructor, by its name: the types of its parameters
        self.written = set()
        self.making = None  # the class in whose constructor the text is

    # which classes have one

    def declare(self, c):
        super().declare(c)
        above = self.makers.get(c.parent.name) if c.parent else None
        if above or self.chance(0.55):
            self.written.add(c.name)
            self.makers[c.name] = [self.some_type() for _ in range(self.random.randint(0, 3))]
        elif above is not None:
            self.makers[c.name] = []

    def may_make(self, c):
        return self.making is None or self.classes.index(c) < self.classes.index(self.making)

    def arguments_for(self, name, depth):
        return ", ".join(self.argument(kind, depth - 1) for kind in self.makers.get(name, []))

    def argument(self, kind, depth):
        """An argument of a creation or of `super(..)`: at times one that makes a fault, or a char for an int."""
        if depth < 0 and self.class_of(kind):
            return self.pick("null", *self.variables(kind))
        if kind == "int" and self.chance(0.25):
            return self.value("char", depth)
        if kind == "int" and self.chance(0.03):
            return self.pick("(1 / 0)", "(new int[1])[1]", '"".charAt(0)')
        return self.value(kind, depth)

    # the text of one

    def maker(self, c):
        if c.name not in self.written:
            return []
        self.scope = [(self.fresh("p"), kind) for kind in self.makers[c.name]]
        self.in_main, self.left, self.making = False, 8, c
        params = ", ".join(f"{kind} {param}" for param, kind in self.scope)
        lines = [f"  {self.pick('', '', 'public ', 'protected ')}{c.name}({params}) {{"]
        lines += ["    " + line for line in self.call_above(c)] + self.body(c)
        self.making = None
        return lines + ["  }"]

    def call_above(self, c):
        """The call of the constructor of the superclass; nothing is there yet of the object."""
        wanted = self.makers.get(c.parent.name, []) if c.parent else []
        if not wanted and self.chance(0.6):
            return []
        self.this = None
        given = ", ".join(self.argument(kind, 1) for kind in wanted)
        self.this = c
        return [f"super({given});"]

    def body(self, c):
        lines, depth = [], 2
        if self.chance(0.25):
            self.left, depth = 0, 0  # what is not bounded by the fuel stores and prints alone
        else:
            lines += self.guard("return;")
            lines += self.calls(c)
        for name, kind in c.own_fields:
            if self.chance(0.6):
                lines.append(f"{self.pick('this.', '')}{name} = {self.value(kind, depth)};")
        if self.chance(0.3):
            lines += [f"if ({self.value('boolean', depth)}) {{"] + self.inner(2) + ["  return;", "}"]
        if self.chance(0.5):
            shown = [f for f, kind in c.fields.items() if kind in SHOWN]
            lines.append(f'System.out.println("{c.name}' + (f' " + {self.pick(*shown)}' if shown else '"') + ");")
        return ["    " + line for line in lines] + self.statements(2, self.random.randint(0, 3))

    def guard(self, end):
        """The lines that end a body where the fuel is used, and take of it."""
        fuel = f"{self.prefix}.fuel"
        return [f"if ({fuel} <= 0) {{", f"  {end}", "}", f"{fuel} = {fuel} - 1;"]

    def method(self, modifier, name, signature):
        head, *lines = super().method(modifier, name, signature)
        if self.chance(0.2):
            return [head, *lines]
        end = "return;" if signature[0] == "void" else f"return {LEAST.get(signature[0], 'null')};"
        return [head, *["    " + line for line in self.guard(end)], *lines]

    def calls(self, c):
        """Calls of methods of the object that is being made; a class below may have its own."""
        lines = []
        for name, (result, kinds) in c.methods.items():
            if self.chance(0.3):
                call = self.call(self.pick("this.", "") + name, kinds, 1)
                lines.append(f"System.out.println({call});" if result in SHOWN else f"{call};")
        return lines

    # where objects are made

    def makeable(self):
        return [c for c in self.classes if self.may_make(c)]

    def member(self, kind, depth):
        found = [c for c in self.makeable() if kind in c.fields.values()]
        if found and self.chance(0.15):
            c = self.pick(*found)
            return f"{self.creation(c.name, depth)}.{self.pick(*[f for f, given in c.fields.items() if given == kind])}"
        found = [(c, m, kinds) for c in self.makeable() for m, (result, kinds) in c.methods.items() if result == kind]
        if found and self.in_main and self.chance(0.15):
            c, m, kinds = self.pick(*found)
            return self.call(f"{self.creation(c.name, depth)}.{m}", kinds, depth - 1)
        return super().member(kind, depth)

    def truth(self, depth):
        objects = [(name, d) for name, d in self.objects() for c in self.makeable() if c.is_below(d.name)]
        if depth > 0 and objects and self.chance(0.06):
            name, d = self.pick(*objects)
            made = self.creation(self.pick(*[c.name for c in self.makeable() if c.is_below(d.name)]), depth - 1)
            return self.pick(f"({made} == {name})", f"({name} != {made})", f"({made} instanceof {d.name})")
        return super().truth(depth)

    def act(self):
        made = self.makeable()
        if made and self.chance(0.25):
            c = self.pick(*made)
            text = f"new {c.name}({self.arguments_for(c.name, 2)})"
            if self.in_main and c.methods and self.chance(0.3):
                m = self.pick(*c.methods)
                return self.call(f"{text}.{m}", c.methods[m][1], 1)
            return text
        return super().act()

    # the fuel

    def main_fields(self):
        return ["  static int fuel;"]

    def main_start(self):
        """The fuel, and an object of some classes."""
        lines = [f"    fuel = {FUEL};"]
        for c in self.classes:
            if self.chance(0.6):
                name, made = self.fresh("v"), self.creation(c.name, 2)
                lines.append(f"    {c.name} {name} = {made};")
                self.scope.append((name, c.name))
        return lines


class ProgramWithMakers(WithMakers, Program):
    """A random program with constructors."""


class ProgramWithAll(WithMakers, ProgramWithInterfaces):
    """A random program with constructors and interfaces."""
