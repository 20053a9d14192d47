"""Where a run meets its fault: the program with a line printed at each of its steps, run again."""
import re
import tempfile
from pathlib import Path

from kaba_tools import FILE_LIMIT, Declarations, kaba

STEPS = 200000
NOTE = re.compile("\x01([bse])([0-9]+)\n")  # a body begins, a statement begins, a body ends; the number of a token


def note(kind, number):
    return f'System.out.println("\x01{kind}{number}");'


class Noted:
    """The text with its notes: it does what it did, and prints each step of its way.

    A return becomes a block that has the value first, notes that the body ends, and returns it.
    """

    def __init__(self, source, declarations):
        self.source, self.tokens = source, source.tokens
        self.before = {}  # what stands before a token
        self.without = set()  # the tokens that are left out
        self.spare = "noted"
        while any(token.text == self.spare for token in self.tokens):
            self.spare += "_"
        for body in declarations.bodies:
            begins = self.behind_above(body.opens + 1)
            self.put(begins, note("b", body.opens))
            self.body(body, begins)
            self.put(body.closes, note("e", body.closes))

    def put(self, k, text):
        self.before[k] = self.before.get(k, "") + text

    def behind_above(self, k):
        """The token behind the `super(..);` that may stand at a token: no note stands before it."""
        if [token.text for token in self.tokens[k : k + 2]] != ["super", "("]:
            return k
        while self.tokens[k].text != ";":
            k += 1
        return k + 1

    def body(self, body, begins):
        brackets = []
        for k in range(body.opens, body.closes):
            text = self.tokens[k].text
            if text in ("(", "[", "{"):
                brackets.append(text)
            elif text in (")", "]", "}"):
                brackets.pop()
            is_end = text in (";", "{", "}") and brackets[-1:] == ["{"] and k + 1 >= begins
            if is_end and self.tokens[k + 1].text != "else":
                self.put(k + 1, note("s", k + 1))
            if text == "return":
                self.enclose(k, body.result)

    def enclose(self, k, result):
        end = k
        while self.tokens[end].text != ";":
            end += 1
        if result == "void":
            self.put(k, "{" + note("e", k))
            self.put(end + 1, "}")
        else:
            self.without.add(k)
            self.put(k, f"{{ {result} {self.spare} = ")
            self.put(end + 1, f"{note('e', k)} return {self.spare}; }}")

    def text(self):
        parts, end = [], 0
        for k in sorted(self.before):
            token = self.tokens[k]
            parts += [self.source.data[end : token.at], self.before[k].encode()]
            end = token.at + (len(token.text) if k in self.without else 0)
        return b"".join(parts) + self.source.data[end:]


def matching(tokens, k):
    """The opening bracket of a closing one."""
    depth = 0
    while True:
        depth += (tokens[k].text in (")", "]", "}")) - (tokens[k].text in ("(", "[", "{"))
        if depth == 0:
            return k
        k -= 1


def statement_at(tokens, k):
    """The statement that a note stands for: at the end of a block it is what the block belongs to, as a loop that goes on."""
    if tokens[k].text != "}":
        return k
    k = matching(tokens, k)
    return matching(tokens, k - 1) - 1 if tokens[k - 1].text == ")" else k


def frames_of(output, source, declarations):
    """The bodies that run at the end of the noted output, each with the statement that runs, the innermost last."""
    labels = {body.opens: body.label for body in declarations.bodies}
    frames = []
    for kind, number in NOTE.findall(output.decode(errors="replace")):
        if kind == "b":
            frames.append([labels[int(number)], int(number) + 1])
        elif kind == "e":
            frames.pop()
        else:
            frames[-1][1] = int(number)
    return [(label, statement_at(source.tokens, k)) for label, k in frames]


def trace(source, words):
    """The bodies that run where the run meets its fault, or nothing where that cannot be known."""
    declarations = Declarations(source)
    text = Noted(source, declarations).text()
    if len(text) > FILE_LIMIT:
        return []
    with tempfile.TemporaryDirectory() as folder:
        file = Path(folder) / "noted.java"
        file.write_bytes(text)
        status, output, _ = kaba("run", str(file), str(STEPS), *words)
    return frames_of(output, source, declarations) if status == 10 else []
