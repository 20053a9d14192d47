"""What the tools share: the program, the tokens of a text with their places, and what the text declares.

The environment variable KABA names another program than the one that is proved and built here: a path, or a command's
name that is looked up on the PATH.
"""
import argparse
import bisect
import json
import os
import re
import shutil
import subprocess
import sys
from collections import namedtuple
from pathlib import Path

from kaba_usage import what_is_wrong

HERE = Path(__file__).resolve().parent.parent
# Where `rt ci` and tools/build make the program, and where `./kaba` keeps a copy of it.
BUILT, KEPT = HERE / "crates" / "kaba" / "out" / "kaba", HERE / "out" / "kaba"
FILE_LIMIT, USAGE = 1048576, 64

Token = namedtuple("Token", "kind text at")  # kind: word, number, char, string or mark; at: the place of its first byte
Declared = namedtuple("Declared", "label type line")  # a variable: the label of its row, the text of its type, and its line
Body = namedtuple("Body", "label result opens closes")  # a method's body: the text of its result's type, and the tokens of its braces
# A method's head: C.m, the texts of the types of its parameters and of its result, its line, and its modifiers.
Head = namedtuple("Head", "label parameters result line modifiers")

MARKS = ["(", ")", "{", "}", "[", "]", ";", ",", ".", "+=", "-=", "*=", "/=", "%=", "++", "--", "==", "!=", "<=", ">=", ">>>", "<<", ">>", "&&", "||"]
MARKS = sorted(MARKS + list("=+-*/%&|^~!<>"), key=len, reverse=True)
MODIFIERS = {"public", "protected", "private", "abstract", "static", "final"}


def fail(message, status=1):
    """Ends the tool with one line and a status."""
    print(f"{Path(sys.argv[0]).name}: {message}", file=sys.stderr)
    sys.exit(status)


def program():
    """The path of the program."""
    named = os.environ.get("KABA")
    if named:
        return os.path.abspath(named) if "/" in named else shutil.which(named) or named
    return str(KEPT if KEPT.is_file() and not BUILT.is_file() else BUILT)


PROGRAM = program()


def no_program(error):
    """Ends the tool where the program cannot be run."""
    if "KABA" in os.environ:
        fail(f"cannot run {PROGRAM}, which the variable KABA names: {error.strerror}", 127)
    if isinstance(error, FileNotFoundError):
        fail("the program is not proved and built on this machine: rt ci does it, or tools/build for it alone", 127)
    fail(f"cannot run {PROGRAM}: {error.strerror}", 127)


def must_have_program():
    """Ends the tool where there is no program to run."""
    if not os.path.isfile(PROGRAM):
        no_program(FileNotFoundError(2, os.strerror(2)))


# What a tool may need beside Python, with Debian's package of it.
PACKAGES = {"java": "openjdk-17-jre-headless", "javac": "openjdk-17-jdk-headless", "dot": "graphviz", "jq": "jq"}


def must_have(command):
    """Ends the tool where a command that it needs is not on the PATH."""
    if not shutil.which(command):
        package = f" (Debian's package {PACKAGES[command]} has it)" if command in PACKAGES else ""
        fail(f"this needs {command}, which is not on the PATH{package}", 127)


def run_tool(main):
    """Runs a tool; where what it writes to is closed early, it just ends."""
    try:
        status = main()
        sys.stdout.flush()
    except BrokenPipeError:
        os.dup2(os.open(os.devnull, os.O_WRONLY), sys.stdout.fileno())
        status = 74
    except KeyboardInterrupt:
        status = 130
    sys.exit(status)


class Words(argparse.ArgumentParser):
    """The words of a tool; where they fit nothing, one line and the status 64."""

    def error(self, message):
        fail(f"{message}; --help says more", 64)


def fail_as(status, error, file):
    """Ends the tool with what the program says of a file, and with where more is said of it."""
    more = f"; tools/explain {file} says more" if status == 65 else ""
    fail((error or f"the program ends with {status}") + more, status)


def words_of(documentation):
    return Words(description=documentation, formatter_class=argparse.RawDescriptionHelpFormatter)


def kaba(*words):
    """The program's answer: its status, its output and its error."""
    try:
        done = subprocess.run([PROGRAM, *words], stdin=subprocess.DEVNULL, capture_output=True)
    except OSError as error:
        no_program(error)
    said = done.stderr.decode(errors="replace").strip()
    if done.returncode == USAGE:
        said = f"{said}: {what_is_wrong(list(map(str, words)))}"
    return done.returncode, done.stdout, said


def bytes_of(file):
    """The bytes of a file."""
    try:
        with open(file, "rb") as opened:
            return opened.read(FILE_LIMIT + 1)
    except OSError as error:
        fail(f"cannot read {file}: {error.strerror}", 66)


class Source:
    """A text, its lines, and its tokens as far as it has some."""

    def __init__(self, data):
        self.data = data
        self.starts = [0] + [at + 1 for at, byte in enumerate(data) if byte == 10]
        self.tokens = tokens_of(data)

    def place(self, at):
        """The line and the column, both from 1, of a place in the bytes."""
        line = bisect.bisect_right(self.starts, at)
        front = self.data[self.starts[line - 1] : at]
        return line, len(front.decode(errors="replace")) + 1

    def line(self, number):
        """The text of a line, without its end."""
        if not 1 <= number <= len(self.starts):
            return ""
        end = self.starts[number] if number < len(self.starts) else len(self.data)
        return self.data[self.starts[number - 1] : end].decode(errors="replace").rstrip("\r\n")

    def line_of(self, token):
        return self.place(token.at)[0]

    def on_line(self, number):
        """The numbers of the tokens of a line."""
        return [k for k, token in enumerate(self.tokens) if self.line_of(token) == number]


def begins_word(c):
    return c == "$" or c.isidentifier()


def goes_on(c):
    return c == "$" or ("a" + c).isidentifier()


LITERAL = {
    "'": re.compile(r"""'(?:[^'\\\r\n]|\\[btnfr"'\\])'"""),
    '"': re.compile(r'''"(?:[^"\\\r\n]|\\[btnfr"'\\])*"'''),
}
BLANK = re.compile(r"(?:[ \t\f\r\n]|//[^\r\n]*|/\*.*?\*/)+", re.S)
NUMBER = re.compile(r"0|[1-9][0-9]*")


def token_at(text, k):
    """The kind and the text of the token that begins there, or nothing."""
    c = text[k]
    if begins_word(c):
        end = k + 1
        while end < len(text) and goes_on(text[end]):
            end += 1
        return "word", text[k:end]
    if c in LITERAL:
        found = LITERAL[c].match(text, k)
        return ("char" if c == "'" else "string", found[0]) if found else None
    found = NUMBER.match(text, k)
    if found:
        after = text[found.end() : found.end() + 1]
        bad = after != "" and (after.isdecimal() or goes_on(after))
        return None if bad or int(found[0]) > 2147483648 else ("number", found[0])
    mark = next((mark for mark in MARKS if text.startswith(mark, k)), None)
    return mark and ("mark", mark)


def tokens_of(data):
    """The tokens up to the first fault."""
    text = data.decode(errors="replace")
    places = [0]  # the bytes before each character
    for c in text:
        places.append(places[-1] + len(c.encode(errors="replace")))
    tokens, k = [], 0
    while k < len(text):
        blank = BLANK.match(text, k)
        if blank:
            k = blank.end()
            continue
        found = token_at(text, k)
        if not found:
            break
        tokens.append(Token(*found, places[k]))
        k += len(found[1])
    return tokens


class Declarations:
    """What the text of a program declares: classes and members with their lines, and each variable's.

    The text is one that the program accepts; the labels are those of the table's rows and columns.
    """

    def __init__(self, source):
        self.source = source
        self.classes = {}  # name: line, in the order of the text
        self.parents = {}  # name: the class that it extends
        self.supertypes = {}  # name: all classes and interfaces that its head names
        self.members = {}  # C.f or C.m(): line
        self.variables = []  # Declared, in the order of the text
        self.bodies = []  # Body, in the order of the text
        self.heads = []  # Head, in the order of the text
        self.at = 0
        while self.at < len(source.tokens):
            self.declaration()

    def text(self, ahead=0):
        k = self.at + ahead
        return self.source.tokens[k].text if k < len(self.source.tokens) else ""

    def line(self, ahead=0):
        return self.source.line_of(self.source.tokens[min(self.at + ahead, len(self.source.tokens) - 1)])

    def skip_modifiers(self):
        """Goes past modifiers, and gives them."""
        first = self.at
        while self.text() in MODIFIERS:
            self.at += 1
        return {token.text for token in self.source.tokens[first : self.at]}

    def declaration(self):
        self.skip_modifiers()
        self.at += 1
        name = self.text()
        self.classes[name] = self.line()
        self.supertypes[name] = []
        while self.text() not in ("{", ""):
            if self.text() in ("extends", "implements", ","):
                self.supertypes[name].append(self.text(1))
            if self.text() == "extends":
                self.parents.setdefault(name, self.text(1))
            self.at += 1
        self.at += 1
        while self.text() not in ("}", ""):
            self.member(name)
        self.at += 1

    def skip_type(self):
        """Goes past a type, and gives its text."""
        first = self.at
        self.at += 1
        while self.text() == "[":
            self.at += 2
        return "".join(token.text for token in self.source.tokens[first : self.at])

    def member(self, holder):
        modifiers = self.skip_modifiers()
        result = "void" if self.text(1) == "(" else self.skip_type()
        name = f"{holder}.{self.text()}"
        self.members.setdefault(name if self.text(1) != "(" else f"{name}()", self.line())
        if self.text(1) != "(":
            self.variables.append(Declared(name, result, self.line()))
            self.at += 2
            return
        self.variables += [Declared(f"{name}.this", holder, self.line()), Declared(f"{name}.return", result, self.line())]
        parameters = []
        self.heads.append(Head(name, parameters, result, self.line(), modifiers))
        self.at += 2
        while self.text() not in (")", ""):
            self.skip_modifiers()
            kind = self.skip_type()
            parameters.append(kind)
            self.variables.append(Declared(f"{name}.{self.text()}", kind, self.line()))
            self.at += 2 if self.text(1) == "," else 1
        self.at += 1
        if self.text() == ";":
            self.at += 1
        else:
            first = self.at
            self.body(name)
            self.bodies.append(Body(name, result, first, self.at - 1))

    def body(self, name):
        """The locals of a body: a type and a name, where a value or the end follows."""
        depth = 0
        while self.text() != "":
            depth += {"{": 1, "}": -1}.get(self.text(), 0)
            if depth == 0:
                break
            if self.text() in (";", "{", "}", "(", "final"):
                self.local(name)
            self.at += 1
        self.at += 1

    def local(self, name):
        tokens, k = self.source.tokens, self.at + 1
        if k >= len(tokens) or tokens[k].kind != "word":
            return
        k += 1
        while k + 1 < len(tokens) and tokens[k].text == "[" and tokens[k + 1].text == "]":
            k += 2
        if k + 1 < len(tokens) and tokens[k].kind == "word" and tokens[k].text != "instanceof" and tokens[k + 1].text in ("=", ";"):
            if tokens[self.at + 1].text not in ("return", "else", "new"):
                kind = "".join(token.text for token in tokens[self.at + 1 : k])
                self.variables.append(Declared(f"{name}.{tokens[k].text}", kind, self.source.line_of(tokens[k])))


class BadLattice(Exception):
    """The text is not the JSON of a lattice."""


class Lattice:
    """A lattice as `kaba lattice -j` writes it, with each concept's whole intent and extent."""

    def __init__(self, text):
        try:
            read = json.loads(text)
            self.columns, self.rows = list(read["columns"]), list(read["rows"])
            concepts = read["concepts"]
            self.above = [list(concept["above"]) for concept in concepts]
            self.own_columns = [list(concept["columns"]) for concept in concepts]
            self.own_rows = [list(concept["rows"]) for concept in concepts]
            self.sizes = [concept["size"] for concept in concepts]
            fits = self.is_in_range()
        except (ValueError, KeyError, TypeError, RecursionError) as error:
            raise BadLattice(f"{type(error).__name__}: {error}".split("\n")[0]) from None
        if not fits:
            raise BadLattice("a number in it names nothing")
        self.set_intents()
        self.extents = [{r for k, at in enumerate(self.own_rows) if j in self.up[k] for r in at} for j in range(len(self.above))]

    def is_in_range(self):
        places = [(self.own_columns, self.columns), (self.own_rows, self.rows)]
        texts = all(isinstance(label, str) for label in self.columns + self.rows) and all(isinstance(size, int) for size in self.sizes)
        above = all(isinstance(j, int) and 0 <= j < k for k, at in enumerate(self.above) for j in at)
        return texts and above and all(0 <= n < len(labels) for lists, labels in places for at in lists for n in at)

    def set_intents(self):
        """The concepts at or above each one, and its columns; a dead column is in the last concept alone."""
        self.up, self.intents = [], []
        for k, above in enumerate(self.above):
            self.up.append({k}.union(*(self.up[j] for j in above)))
            self.intents.append(set(self.own_columns[k]).union(*(self.intents[j] for j in above)))
        placed = {c for at in self.own_columns for c in at}
        self.dead = [c for c in range(len(self.columns)) if c not in placed]
        if self.intents:
            self.intents[-1].update(self.dead)


def class_of(label):
    """The class whose member, variable, creation or test a label is."""
    return re.sub(r"^(?:\w+\(|new |cast |instanceof )", "", label).split(".")[0].split("@")[0].split("[")[0].rstrip(")")
