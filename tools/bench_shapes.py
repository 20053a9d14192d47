"""Texts of up to about a megabyte, each of one shape that names and types meet, at four sizes."""


def main(body=""):
    return f"class Main {{\n  static void main(String[] args) {{\n{body}  }}\n}}\n"


def chain(count):
    """Classes one below the other."""
    return "class C0 {\n}\n" + "".join(f"class C{n} extends C{n - 1} {{\n}}\n" for n in range(1, count)) + main()


def chain_upwards(count):
    """The same with each class before the one that it extends."""
    return "".join(f"class C{n} extends C{n - 1} {{ }}\n" for n in range(count - 1, 0, -1)) + "class C0 { }\n" + main()


def named_upwards(count):
    """The same, each with a method of one name, beside a class with a private one."""
    text = "".join(f"class C{n} extends C{n - 1} {{ void m() {{ }} }}\n" for n in range(count - 1, 0, -1))
    return text + "class C0 { void m() { } }\nclass P { private void m() { } }\n" + main()


def own_members(count):
    """Classes one below the other, each with a field and a method of its own, and an object of the lowest."""
    text = "class C0 {\n  int f0;\n  void m0() {\n  }\n}\n"
    text += "".join(f"class C{n} extends C{n - 1} {{\n  int f{n};\n  void m{n}() {{\n  }}\n}}\n" for n in range(1, count))
    return text + main(f"    C0 c = new C{count - 1}();\n")


def beside_an_interface(count):
    """The same beside an interface, whose method has no body."""
    return "interface I {\n  void i();\n}\n" + own_members(count)


def overriding(count):
    """Classes one below the other, each with a method that overrides and calls the one above."""
    text = "class C0 {\n  int m(int a) {\n    return a;\n  }\n}\n"
    for n in range(1, count):
        text += f"class C{n} extends C{n - 1} {{\n  int m(int a) {{\n    return super.m(a) + 1;\n  }}\n}}\n"
    return text + main()


def beside(count):
    """Classes side by side, each with a field and a method."""
    return "".join(f"class C{n} {{ int f; int m{n}() {{ return f; }} }}\n" for n in range(count)) + main()


def two_names(count):
    """Classes side by side, each with a static and an instance method of the same two names."""
    return "".join(f"class C{n} {{\n  static void s() {{\n  }}\n  void m() {{\n  }}\n}}\n" for n in range(count)) + main()


def diamonds(levels):
    """Interfaces, two at each level, that name both of the level above, a class below all, and one beside them."""
    text = "class D {\n  int m() {\n    return 0;\n  }\n}\ninterface A0 {\n}\ninterface B0 {\n}\n"
    for n in range(1, levels):
        text += "".join(f"interface {name}{n} extends A{n - 1}, B{n - 1} {{\n}}\n" for name in "AB")
    last = levels - 1
    return text + f"class C implements A{last}, B{last} {{\n}}\n" + main(f"    A0 a = new C();\n    C c = (C) a;\n    B0 b = c;\n")


def behind_diamonds(levels):
    """The same levels, and a call of a method that stands in an interface named behind the last two."""
    text = "interface Z {\n  void z();\n}\ninterface A0 {\n}\ninterface B0 {\n}\n"
    for n in range(1, levels):
        text += "".join(f"interface {name}{n} extends A{n - 1}, B{n - 1} {{\n}}\n" for name in "AB")
    text += f"interface E extends A{levels - 1}, B{levels - 1}, Z {{\n}}\nclass C implements E {{\n  public void z() {{\n  }}\n}}\n"
    return text + main("    E e = new C();\n    e.z();\n")


def faces_in_a_chain(count):
    """Interfaces one below the other, and a call through the lowest of the method of the highest."""
    text = "interface I0 {\n  void m();\n}\n" + "".join(f"interface I{n} extends I{n - 1} {{\n}}\n" for n in range(1, count))
    return text + f"class C implements I{count - 1} {{\n  public void m() {{\n  }}\n}}\n" + main(f"    I{count - 1} i = new C();\n    i.m();\n")


def calls_below_a_chain(count):
    """Classes one below the other, and as many calls through the lowest of the method of the highest."""
    text = "class C0 {\n  void m() {\n  }\n}\n" + "".join(f"class C{n} extends C{n - 1} {{\n}}\n" for n in range(1, count))
    return text + main(f"    C{count - 1} c = new C{count - 1}();\n" + "    c.m();\n" * count)


def namesakes(count):
    """Classes side by side with a method of one name, and as many calls of that name through an interface below the one that has it."""
    text = "".join(f"class C{n} {{\n  void m() {{\n  }}\n}}\n" for n in range(count))
    text += "interface J {\n  void m();\n}\ninterface I extends J {\n}\nclass C implements I {\n  public void m() {\n  }\n}\n"
    return text + main("    I i = new C();\n" + "    i.m();\n" * count)


def members(count):
    """A class with so many fields and methods, each of them used."""
    text = "class P {\n" + "".join(f"  int f{n};\n  int m{n}() {{\n    return f{n};\n  }}\n" for n in range(count)) + "}\n"
    return text + main("    P p = new P();\n" + "".join(f"    p.f{n} = p.m{n}();\n" for n in range(count)))


def parameters(count):
    """A method with so many parameters, each of them used, and a call of it."""
    text = "class P {\n  static int m(" + ", ".join(f"int p{n}" for n in range(count)) + ") {\n    int sum = 0;\n"
    text += "".join(f"    sum = sum + p{n};\n" for n in range(count)) + "    return sum;\n  }\n}\n"
    return text + main("    int sum = P.m(" + ", ".join(str(n) for n in range(count)) + ");\n")


def locals_of_a_body(count):
    """A body with so many locals."""
    return main("".join(f"    int l{n} = {n};\n" for n in range(count)))


def blocks(count):
    """So many locals, and so many blocks under them, each with a local of its own."""
    body = "".join(f"    int l{n} = {n};\n" for n in range(count))
    body += "".join(f"    {{\n      int b = l{n};\n      l{n} = b + 1;\n    }}\n" for n in range(count))
    return main(body)


def bare(count):
    """So many methods without a body."""
    return "".join(f"  void m{n}();\n" for n in range(count))


def bodies(count):
    """Their bodies."""
    return "".join(f"  public void m{n}() {{\n  }}\n" for n in range(count))


def abstract_chain(count):
    """An interface above a chain of abstract classes, and a class with all bodies below them: so many methods and classes."""
    text = f"interface I {{\n{bare(count)}}}\nabstract class C0 implements I {{\n}}\n"
    text += "".join(f"abstract class C{n} extends C{n - 1} {{\n}}\n" for n in range(1, count))
    return text + f"class C extends C{count - 1} {{\n{bodies(count)}}}\n" + main()


def concrete_chain(count):
    """A class with the bodies of an interface, above a chain of classes: so many methods and classes."""
    text = f"interface I {{\n{bare(count)}}}\nclass C0 implements I {{\n{bodies(count)}}}\n"
    return text + "".join(f"class C{n} extends C{n - 1} {{\n}}\n" for n in range(1, count)) + main()


def aside(count):
    """An interface with so many methods, and as many classes that have nothing to do with it."""
    return f"interface I {{\n{bare(count)}}}\n" + "".join(f"class C{n} {{\n}}\n" for n in range(count)) + main()


def many_faces(count):
    """So many interfaces with a method each, and a class with the bodies of all."""
    text = "".join(f"interface I{n} {{\n  void m{n}();\n}}\n" for n in range(count))
    return text + f"class C implements {', '.join(f'I{n}' for n in range(count))} {{\n{bodies(count)}}}\n" + main()


def one_slot(count):
    """So many interfaces with a method of one slot, a class with its body, and as many classes in a chain below it."""
    text = "".join(f"interface I{n} {{\n  void m();\n}}\n" for n in range(count))
    text += f"class C0 implements {', '.join(f'I{n}' for n in range(count))} {{\n  public void m() {{\n  }}\n}}\n"
    return text + "".join(f"class C{n} extends C{n - 1} {{\n}}\n" for n in range(1, count)) + main()


def one_slot_upwards(count):
    """The same with each class before the one that it extends, and the interfaces last."""
    text = "".join(f"class C{n} extends C{n - 1} {{\n}}\n" for n in range(count - 1, 0, -1))
    text += f"class C0 implements {', '.join(f'I{n}' for n in range(count))} {{\n  public void m() {{\n  }}\n}}\n"
    return text + "".join(f"interface I{n} {{\n  void m();\n}}\n" for n in range(count)) + main()


def by_turns(count):
    """An interface with so many methods, an abstract class that declares every other again, and as many abstract classes in a chain below it."""
    again = "".join(f"  public abstract void m{n}();\n" for n in range(0, count, 2))
    text = f"interface I {{\n{bare(count)}}}\nabstract class C0 implements I {{\n{again}}}\n"
    return text + "".join(f"abstract class C{n} extends C{n - 1} {{\n}}\n" for n in range(1, count)) + main()


def reads_below_a_chain(count):
    """Classes one below the other, and three reads for each of a field of the highest from an object of the lowest."""
    text = "class C0 {\n  int f;\n}\n" + "".join(f"class C{n} extends C{n - 1} {{\n}}\n" for n in range(1, count))
    return text + main(f"    C{count - 1} c = new C{count - 1}();\n    int x = 0;\n" + "    x = c.f;\n" * (3 * count))


def simple_names_below_a_chain(count):
    """A chain of classes under one with a field, and six times as many uses of the field by its simple name in the lowest."""
    text = "class C0 { int f; }\n" + "".join(f"class C{n} extends C{n - 1} {{ }}\n" for n in range(1, count))
    bodies = "".join(f"  void m{n}() {{ {'f=1; ' * 100}}}\n" for n in range(6 * count // 100))
    return text + f"class L extends C{count - 1} {{\n{bodies}}}\n" + main()


def super_calls_below_a_chain(count):
    """Classes one below the other, and two calls for each of the method of the highest by super."""
    text = "class C0 {\n  void m() {\n  }\n}\n" + "".join(f"class C{n} extends C{n - 1} {{\n}}\n" for n in range(1, count))
    return text + f"class D extends C{count - 1} {{\n  void n() {{\n" + "    super.m();\n" * (2 * count) + "  }\n}\n" + main()


def namesakes_alone(count):
    """Classes side by side with a method of one name."""
    return "".join(f"class C{n} {{\n  void m() {{\n  }}\n}}\n" for n in range(count)) + main()


def own_parameters(count):
    """Classes side by side with a method of one name, each with a parameter of its own class."""
    return "".join(f"class C{n} {{ void m(C{n} a) {{ }} }}\n" for n in range(count)) + main()


def overloads(count):
    """Interfaces with a method of one name, each with a class, by turns with a parameter of two types."""
    text = ""
    for n in range(count):
        kind = ("int", "char")[n % 2]
        text += f"interface I{n} {{ void m({kind} a); }}\nclass C{n} implements I{n} {{ public void m({kind} a) {{ }} }}\n"
    return text + main()


def two_chains(count):
    """Two chains of classes, each before the one that it extends, with a method of one name and a parameter of its chain's type."""
    text = ""
    for name, kind in (("A", "int"), ("B", "char")):
        text += "".join(f"class {name}{n} extends {name}{n - 1} {{ void m({kind} a) {{ }} }}\n" for n in range(count - 1, 0, -1))
        text += f"class {name}0 {{ void m({kind} a) {{ }} }}\n"
    return text + main()


# The shape, its sizes, and the seconds and megabytes that the greatest may take until it is checked.
SHAPES = [
    ("classes in a chain", chain, (1000, 2000, 4000, 8000)),
    ("classes in a chain, each before the one that it extends", chain_upwards, (4000, 8000, 16000, 32000)),
    ("the same with a method of one name, beside a private one", named_upwards, (2500, 5000, 10000, 20000)),
    ("classes in a chain, each with a field and a method", own_members, (1000, 2000, 4000, 8000)),
    ("the same beside an interface", beside_an_interface, (1000, 2000, 4000, 8000)),
    ("classes that override and call super", overriding, (188, 375, 750, 1500)),
    ("classes with a field and a method", beside, (2500, 5000, 10000, 20000)),
    ("classes with one static and one instance name", two_names, (1000, 2000, 4000, 8000)),
    ("levels of interfaces that name two above", diamonds, (8, 15, 30, 60)),
    ("such levels, and a call of a method behind them", behind_diamonds, (8, 15, 30, 60)),
    ("interfaces in a chain, and a call of the method of the highest", faces_in_a_chain, (3625, 7250, 14500, 29000)),
    ("classes in a chain, and as many calls of the method of the highest", calls_below_a_chain, (3000, 6000, 12000, 24000)),
    ("classes in a chain, and three times as many reads of a field of the highest", reads_below_a_chain, (1750, 3500, 7000, 14000)),
    ("classes in a chain, and six times as many uses of a field of the highest by its simple name", simple_names_below_a_chain, (2000, 4000, 8000, 16000)),
    ("classes in a chain, and twice as many calls by super of the method of the highest", super_calls_below_a_chain, (2000, 4000, 8000, 16000)),
    ("methods of one name in as many classes", namesakes_alone, (3750, 7500, 15000, 30000)),
    ("methods of one name in as many classes, each with a parameter of its class", own_parameters, (3500, 7000, 14000, 28000)),
    ("interfaces with a method of one name and one of two parameters, and as many classes", overloads, (1250, 2500, 5000, 10000)),
    ("two chains with methods of one name and a parameter each, each class before the one above", two_chains, (1250, 2500, 5000, 10000)),
    ("methods of one name, and as many calls through an interface", namesakes, (2500, 5000, 10000, 20000)),
    ("fields and as many methods in one class", members, (625, 1250, 2500, 5000)),
    ("parameters of one method", parameters, (375, 750, 1500, 3000)),
    ("locals in one body", locals_of_a_body, (3500, 7000, 14000, 28000)),
    ("blocks under as many locals", blocks, (250, 500, 1000, 2000)),
    ("methods of an interface, abstract classes in a chain below it, and a class with the bodies", abstract_chain, (1250, 2500, 5000, 10000)),
    ("methods of an interface, their bodies, and classes in a chain below them", concrete_chain, (1250, 2500, 5000, 10000)),
    ("methods of an interface beside as many classes", aside, (2500, 5000, 10000, 20000)),
    ("interfaces with a method each, and a class with the bodies", many_faces, (1250, 2500, 5000, 10000)),
    ("interfaces with a method of one slot, its body, and classes in a chain below it", one_slot, (1600, 3200, 6400, 12800)),
    ("the same with each class before the one that it extends", one_slot_upwards, (1600, 3200, 6400, 12800)),
    ("methods of an interface, every other declared again, and abstract classes in a chain below it", by_turns, (1600, 3200, 6400, 12800)),
]
SECONDS, MEGABYTES, STACK = 5, 500, 256 << 10
