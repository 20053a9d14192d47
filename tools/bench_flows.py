"""Texts of one shape each, near the limits of the program, that the analysis meets, at four sizes."""
from bench_shapes import overriding

SECONDS, MEGABYTES = 60, 2048

NODE = "class Node {\n  Node next;\n}\n"


def main(body):
    return f"class Main {{\n  static void main(String[] args) {{\n{body}  }}\n}}\n"


def nodes(count):
    """So many variables, each with an object of its own."""
    return "".join(f"    Node a{n} = new Node();\n" for n in range(count))


def against(count):
    """Variables, each set to the next: what flows through all of them comes in the order that takes longest when it is followed."""
    return NODE + main(nodes(count) + "".join(f"    a{n} = a{n + 1};\n" for n in range(count - 1)))


def along(count):
    """Variables, each set to the one before."""
    return NODE + main(nodes(count) + "".join(f"    a{n + 1} = a{n};\n" for n in range(count - 1)))


def around(count):
    """Variables, each set to the next, and the last to the first."""
    return NODE + main(nodes(count) + "".join(f"    a{n} = a{(n + 1) % count};\n" for n in range(count)))


def followed(count):
    """A list whose nodes have a variable each: each is read from the one before."""
    body = "".join(f"    a{n}.next = new Node();\n    Node a{n + 1} = a{n}.next;\n" for n in range(count))
    return NODE + main("    Node a0 = new Node();\n" + body)


def walked(count):
    """A list whose nodes have a variable each, and each variable goes on to the next node of what it has."""
    body = nodes(count + 1) + "".join(f"    a{n + 1}.next = a{n};\n" for n in range(count)) + "    Node x = null;\n"
    return NODE + main(body + "".join(f"    x = a{n}.next;\n    a{n} = x;\n" for n in range(count)))


def methods(count):
    """A class with so many methods, each called on a variable with twice as many objects."""
    text = "class P {\n" + "".join(f"  void m{n}() {{\n  }}\n" for n in range(count)) + "}\n"
    return text + main("    P p = null;\n" + "    p = new P();\n" * (2 * count) + "".join(f"    p.m{n}();\n" for n in range(count)))


def bodies(count):
    """So many classes with a body of one method each, objects of which one variable has, and ten times as many calls on it."""
    text = "class P {\n  P m(P p) {\n    return p;\n  }\n}\n"
    text += "".join(f"class P{n} extends P {{\n  P m(P p) {{\n    return this;\n  }}\n}}\n" for n in range(count))
    return text + main("    P p = new P();\n" + "".join(f"    p = new P{n}();\n" for n in range(count)) + "    p.m(p);\n" * (10 * count))


def each_with_all(count):
    """So many variables, each of which is used with each of so many fields: each row has each column."""
    text = "class P {\n" + "".join(f"  int f{n};\n" for n in range(count)) + "}\n"
    return text + main("    P p = new P();\n" + "".join(f"    p.f{n} = 0;\n" for n in range(count)) + "".join(f"    P p{n} = p;\n    p = p{n};\n" for n in range(count)))


FLOWS = [
    ("variables set to the next", against, (1000, 2000, 4000, 8000)),
    ("variables set to the one before", along, (1000, 2000, 4000, 8000)),
    ("variables set to the next, and the last to the first", around, (1000, 2000, 4000, 8000)),
    ("a list whose nodes are read one from the other", followed, (1000, 2000, 4000, 8000)),
    ("a list walked by a variable for each node", walked, (1000, 2000, 4000, 8000)),
    ("methods of a class, each called on twice as many objects", methods, (500, 1000, 2000, 4000)),
    ("bodies of a method, with ten times as many calls", bodies, (250, 500, 1000, 2000)),
    ("variables that have each of as many fields", each_with_all, (500, 1000, 2000, 4000)),
    ("classes one below the other, each with a method that overrides and calls the one above", overriding, (500, 1000, 2000, 4000)),
]

# Those whose table tools/bench-baselines/flows.cpp works out too.
IN_CPP = {against, along, around, followed, walked, methods}
