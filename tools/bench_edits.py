"""Programs and scripts of one shape each at four sizes, for the commands that edit a hierarchy and write a program again."""


def chain_with_members(count):
    """Classes one below the other, each with a field and a method that are used on an object of the lowest, so many in all."""
    text = "class C0 {\n  int f0;\n  int m0() {\n    return f0;\n  }\n}\n"
    text += "".join(
        f"class C{n} extends C{n - 1} {{\n  int f{n};\n  int m{n}() {{\n    return f{n};\n  }}\n}}\n" for n in range(1, count)
    )
    body = f"    C{count - 1} c = new C{count - 1}();\n    int sum = 0;\n"
    body += "".join(f"    C{n} c{n} = c;\n    sum = sum + c{n}.m{n}();\n" for n in range(count))
    return text + f"class Main {{\n  static void main(String[] args) {{\n{body}    System.out.println(sum);\n  }}\n}}\n"


def joined(count):
    """So many edits: merges of two nodes and nodes put under others, in turn."""
    return "".join(f"merge n{2 * n + 1} n{2 * n + 2}\nunder n{300 + 3 * n} n{5 + 2 * n}\n" for n in range(count // 2))


def named(count):
    """So many edits that give types names of their own."""
    return "".join(f"type n{1 + n % 50} Type{n}\n" for n in range(count))


def undone(count):
    """So many lines: merges of two nodes and undos, in turn."""
    return "merge n0 n1\nundo\n" * (count // 2)


def edit_shapes(families, cube):
    """A name, a program and a script of a size, the words around them, the sizes, and the seconds wanted of each."""
    bound = ["-c", "16384"]
    return [
        ("families of six classes, their hierarchy", families, lambda n: "", ["edit", *bound], (10, 20, 40, 100), (0.1, 0.3, 1, 5)),
        ("the same with 200 merges and unders", families, lambda n: joined(200), ["edit", *bound], (5, 10, 20, 40), (1, 2, 4, 8)),
        ("the same with 4,096 names of types", families, lambda n: named(4096), ["edit"], (1, 2, 5, 10), (2, 4, 10, 20)),
        ("the same with 4,096 merges and undos by turns", families, lambda n: undone(4096), ["edit"], (1, 2, 5, 10), (0.5, 1, 2, 5)),
        ("variables that each lack one field, their hierarchy", cube, lambda n: "", ["edit", *bound], (8, 10, 12, 14), (0.1, 0.1, 0.3, 3)),
        ("families of six classes, written again", families, lambda n: "", ["regen", *bound], (10, 20, 40, 100), (0.4, 1, 3, 10)),
        ("a chain of classes with members, written again", chain_with_members, lambda n: "", ["regen"], (25, 50, 100, 200), (1, 2, 4, 8)),
        ("variables that each lack one field, written again", cube, lambda n: "", ["regen", *bound], (4, 6, 8, 10), (0.1, 1, 5, 60)),
    ]


# A run ends after so many processor seconds. Growth is told of runs that take at least so many.
MOST, MEGABYTES, LEAST = 120, 300, 0.02
