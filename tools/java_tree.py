"""The syntax tree of a program that Kaba takes, with the tokens of each form, for changes of its text in place."""
from kaba_tools import MODIFIERS

BASIC = {"int", "boolean", "char"}
KEYWORDS = set(
    "abstract assert boolean break byte case catch char class const continue default do double else enum extends final"
    " finally float for goto if implements import instanceof int interface long native new package private protected"
    " public return short static strictfp super switch synchronized this throw throws transient try void volatile"
    " while true false null _".split()
)
LEVELS = [["||"], ["&&"], ["|"], ["^"], ["&"], ["==", "!="], ["<", ">", "<=", ">="], ["<<", ">>", ">>>"]]
LEVELS += [["+", "-"], ["*", "/", "%"]]
COMPARISON = 6  # the level at which `instanceof` stands
PREFIX = {"+", "-", "!", "~"}
OPERANDS = {"this", "super", "new", "true", "false", "null"}
COMPOUND = {"+=", "-=", "*=", "/=", "%="}
ESCAPES = {"b": "\b", "t": "\t", "n": "\n", "f": "\f", "r": "\r"}


class NoTree(Exception):
    """The tokens are not those of a program."""


class HasConstructor(NoTree):
    """The program has a constructor, which plans, proposals and patches do not take."""


class Form:
    """A form of the tree: its kind, its first and last token, and its parts under their names."""

    def __init__(self, kind, first, last, **parts):
        self.kind, self.first, self.last = kind, first, last
        self.parts = parts
        self.__dict__.update(parts)

    def __repr__(self):
        return f"{self.kind}({self.first}..{self.last})"


class Named:
    """A name that stands in the text, or a type with so many pairs of brackets, and its token."""

    def __init__(self, name, at, dims=0):
        self.name, self.at, self.dims = name, at, dims


def value_of(literal):
    """The characters of a literal of characters."""
    inner, out, k = literal[1:-1], [], 0
    while k < len(inner):
        if inner[k] == "\\":
            k += 1
            out.append(ESCAPES.get(inner[k], inner[k]))
        else:
            out.append(inner[k])
        k += 1
    return "".join(out)


class Cursor:
    """The tokens, and how far they were read."""

    def __init__(self, source):
        self.source, self.tokens, self.at = source, source.tokens, 0

    def text(self, ahead=0):
        k = self.at + ahead
        return self.tokens[k].text if k < len(self.tokens) else ""

    def kind(self, ahead=0):
        k = self.at + ahead
        return self.tokens[k].kind if k < len(self.tokens) else ""

    def is_name(self, ahead=0):
        return self.kind(ahead) == "word" and self.text(ahead) not in KEYWORDS

    def take(self, *wanted):
        """Goes past a token, which must be one of those that are wanted, and gives its number."""
        if wanted and self.text() not in wanted or self.at >= len(self.tokens):
            line = self.source.line_of(self.tokens[self.at]) if self.at < len(self.tokens) else len(self.source.starts)
            raise NoTree(f"line {line}: {' or '.join(wanted) or 'more'} is wanted")
        self.at += 1
        return self.at - 1

    def skip(self, text):
        """Goes past this token where it stands here."""
        if self.text() == text:
            self.at += 1
            return True
        return False

    def name(self):
        if not self.is_name():
            raise NoTree(f"a name is wanted at token {self.at}")
        return Named(self.tokens[self.at].text, self.take())

    def brackets(self):
        count = 0
        while self.text() == "[" and self.text(1) == "]":
            self.at += 2
            count += 1
        return count

    def type(self):
        at = self.at
        if self.text() not in BASIC and not self.is_name():
            raise NoTree(f"a type is wanted at token {at}")
        self.at += 1
        return Named(self.tokens[at].text, at, self.brackets())


class Expressions(Cursor):
    """Reads expressions."""

    def expression(self, level=0):
        if level == len(LEVELS):
            return self.prefix()
        left = self.expression(level + 1)
        while True:
            mark = self.text()
            if mark in LEVELS[level] and self.kind() == "mark":
                self.take()
                right = self.expression(level + 1)
                left = Form("Binary", left.first, right.last, mark=mark, left=left, right=right)
            elif level == COMPARISON and mark == "instanceof":
                self.take()
                tested = self.name()
                left = Form("InstanceOf", left.first, tested.at, value=left, type=tested)
            else:
                return left

    def is_cast(self):
        if self.text() != "(" or self.text(2) != ")":
            return False
        if self.text(1) in ("int", "char"):
            return True
        begins = self.kind(3) in ("number", "char", "string") or self.is_name(3) or self.text(3) in OPERANDS
        return self.is_name(1) and (begins or self.text(3) in ("(", "!", "~"))

    def prefix(self):
        first = self.at
        if self.text() == "-" and self.text(1) == "2147483648":
            self.at += 2
            return Form("Int", first, first + 1, value=-2147483648)
        if self.kind() == "mark" and self.text() in PREFIX:
            mark = self.tokens[self.take()].text
            value = self.prefix()
            return Form("Unary", first, value.last, mark=mark, value=value)
        if self.is_cast():
            self.take("(")
            cast = self.type()
            self.take(")")
            value = self.prefix()
            return Form("Cast", first, value.last, type=cast, value=value)
        return self.post()

    def post(self):
        found = self.primary()
        while True:
            if self.text() == "." and self.kind() == "mark":
                self.take()
                name = self.name()
                if self.text() == "(":
                    args = self.arguments()
                    found = Form("Call", found.first, self.at - 1, base=found, name=name, args=args)
                else:
                    found = Form("Field", found.first, name.at, base=found, name=name)
            elif self.text() == "[":
                self.take()
                place = self.expression()
                found = Form("Index", found.first, self.take("]"), base=found, place=place)
            else:
                return found

    def arguments(self):
        self.take("(")
        found = []
        while self.text() != ")":
            found.append(self.expression())
            if self.text() != ")":
                self.take(",")
        self.take(")")
        return found

    def primary(self):
        first, kind, text = self.at, self.kind(), self.text()
        if kind == "number":
            return Form("Int", first, self.take(), value=int(text))
        if kind in ("char", "string"):
            return Form("Char" if kind == "char" else "Str", first, self.take(), value=value_of(text))
        if text == "(":
            self.take()
            inner = self.expression()
            inner.first, inner.last = first, self.take(")")
            return inner
        if text in ("true", "false", "null", "this"):
            kind = {"this": "This", "null": "Null"}.get(text, "Bool")
            return Form(kind, first, self.take(), value=text)
        if text == "super":
            self.at += 2
            name = self.name()
            args = self.arguments()
            return Form("SuperCall", first, self.at - 1, name=name, args=args)
        return self.creation(first) if text == "new" else self.simple(first)

    def simple(self, first):
        name = self.name()
        if self.text() == "(":
            args = self.arguments()
            return Form("Call", first, self.at - 1, base=None, name=name, args=args)
        return Form("Name", first, first, name=name)

    def creation(self, first):
        self.take("new")
        at = self.at
        self.at += 1
        if self.text() == "(":
            args = self.arguments()
            return Form("New", first, self.at - 1, type=Named(self.tokens[at].text, at), args=args)
        self.take("[")
        size = self.expression()
        self.take("]")
        made = Named(self.tokens[at].text, at, 1 + self.brackets())
        return Form("NewArray", first, self.at - 1, type=made, size=size)


class Statements(Expressions):
    """Reads statements."""

    def body(self):
        """The statements of a body: those of a block, or the one."""
        if self.text() == "{":
            return self.block()
        if self.skip(";"):
            return []
        return [self.statement()]

    def block(self):
        self.take("{")
        found = []
        while self.text() != "}":
            found.append(self.statement())
        self.take("}")
        return found

    def is_local(self):
        if self.text() in BASIC or self.text() == "final":
            return True
        return self.is_name() and (self.is_name(1) or self.text(1) == "[" and self.text(2) == "]")

    def statement(self):
        first, text = self.at, self.text()
        if text in ("{", ";"):
            items = self.body()
            return Form("Block", first, self.at - 1, items=items)
        if text in ("if", "while", "for"):
            return getattr(self, f"{text}_statement")(first)
        if text in ("return", "break", "continue"):
            self.take()
            value = self.expression() if self.text() != ";" else None
            return Form(text.capitalize(), first, self.take(";"), value=value)
        found = self.local() if self.is_local() else self.act()
        found.last = self.take(";")
        return found

    def local(self):
        first = self.at
        self.skip("final")
        kind = self.type()
        name = self.name()
        value = self.expression() if self.skip("=") else None
        return Form("Local", first, self.at - 1, type=kind, name=name, value=value)

    def act(self):
        """An assignment, a call, a creation or a printing."""
        first = self.at
        if self.text() in ("++", "--"):
            mark = self.tokens[self.take()].text
            return self.compound(first, self.name(), mark, None)
        if self.is_name() and self.text(1) in COMPOUND | {"++", "--"}:
            name, mark = self.name(), self.tokens[self.take()].text
            return self.compound(first, name, mark, self.expression() if mark in COMPOUND else None)
        if self.is_print():
            newline = self.text(4) == "println"
            self.at += 5
            args = self.arguments()
            return Form("Print", first, self.at - 1, newline=newline, value=args[0] if args else None)
        target = self.post()
        if self.skip("="):
            value = self.expression()
            return Form("Assign", first, self.at - 1, target=target, value=value, short=None)
        return Form("Do", first, self.at - 1, call=target)

    def is_print(self):
        words = "".join(self.text(k) for k in range(6))
        return words in ("System.out.println(", "System.out.print(")

    def compound(self, first, name, mark, value):
        """The assignment that `x op= e`, `x++` or `--x` is short for; what is short stands beside it."""
        target = Form("Name", name.at, name.at, name=name)
        right = value or Form("Int", first, self.at - 1, value=1)
        whole = Form("Binary", first, self.at - 1, mark=mark[0], left=target, right=right)
        return Form("Assign", first, self.at - 1, target=target, value=whole, short=(mark[0], value))

    def if_statement(self, first):
        arms, other = [], None
        while True:
            self.take("if")
            self.take("(")
            test = self.expression()
            self.take(")")
            arms.append((test, self.body()))
            if not self.skip("else"):
                break
            if self.text() != "if":
                other = self.body()
                break
        return Form("If", first, self.at - 1, arms=arms, other=other)

    def while_statement(self, first):
        self.take("while")
        self.take("(")
        test = self.expression()
        self.take(")")
        body = self.body()
        return Form("While", first, self.at - 1, test=test, body=body)

    def for_statement(self, first):
        self.take("for")
        self.take("(")
        begin = None if self.text() == ";" else self.local() if self.is_local() else self.act()
        self.take(";")
        test = None if self.text() == ";" else self.expression()
        self.take(";")
        step = None if self.text() == ")" else self.act()
        self.take(")")
        body = self.body()
        return Form("For", first, self.at - 1, begin=begin, test=test, step=step, body=body)


class Declared(Statements):
    """Reads declarations."""

    def program(self):
        found = []
        while self.at < len(self.tokens):
            found.append(self.declaration())
        return found

    def modifiers(self):
        found = []
        while self.text() in MODIFIERS:
            found.append(Named(self.text(), self.take()))
        return found

    def declaration(self):
        first = self.at
        mods = self.modifiers()
        word = self.take("class", "interface")
        name, parent, faces = self.name(), None, []
        if self.tokens[word].text == "class" and self.skip("extends"):
            parent = self.name()
        if self.skip("implements") or self.skip("extends"):
            faces = [self.name()]
            while self.skip(","):
                faces.append(self.name())
        opens, members = self.take("{"), []
        while self.text() != "}":
            members.append(self.member())
        last = self.take("}")
        kind = "Interface" if self.tokens[word].text == "interface" else "Class"
        head = {"mods": mods, "word": word, "name": name, "parent": parent, "faces": faces, "opens": opens}
        return Form(kind, first, last, **head, members=members)

    def member(self):
        first = self.at
        mods = self.modifiers()
        if self.is_name() and self.text(1) == "(":
            line = self.source.line_of(self.tokens[self.at])
            raise HasConstructor(f"line {line}: a constructor is not in plans, proposals and patches; kaba edit and kaba regen take it")
        result = Named("void", self.take()) if self.text() == "void" else self.type()
        name = self.name()
        if self.text() != "(":
            return Form("FieldMember", first, self.take(";"), mods=mods, type=result, name=name)
        params = self.parameters()
        body = None
        if self.text() == "{":
            body = self.block()
        else:
            self.take(";")
        return Form("Method", first, self.at - 1, mods=mods, type=result, name=name, params=params, body=body)

    def parameters(self):
        self.take("(")
        found = []
        while self.text() != ")":
            first = self.at
            self.skip("final")
            kind = self.type()
            name = self.name()
            found.append(Form("Param", first, name.at, type=kind, name=name))
            if self.text() != ")":
                self.take(",")
        self.take(")")
        return found


def tree_of(source):
    """The declarations of a text that the program takes; NoTree where it has none."""
    return Declared(source).program()
