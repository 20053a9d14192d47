"""The program that the workbench shows: its text in pieces, its members, variables and classes, by number."""
import re
from pathlib import Path

from kaba_analysis import analyse_given
from kaba_tools import class_of
from workbench_everyday import everyday_pieces

MARKED = re.compile(r"(new|cast|instanceof) (.+)@(\d+)")


class Program:
    """A file as it was when it was read: the analysis of it, and a copy which every answer is about."""

    def __init__(self, given, folder, most):
        self.given, self.file, self.most = given, str(given.name), most
        self.analysis = analyse_given(given, most)
        self.data = self.analysis.source.data
        self.copy = Path(folder, Path(given.file).name)
        self.copy.write_bytes(self.data)
        self.read = {file: Path(file).read_bytes() for file in given.files}

    def changed_on_disk(self):
        """Whether a file has another text now."""
        try:
            return any(Path(file).read_bytes() != data for file, data in self.read.items())
        except OSError:
            return True

    def described(self):
        """What the page shows of the program, whatever the script."""
        lattice = self.analysis.lattice
        return {
            "file": self.file,
            "name": Path(self.file).name,
            "source": everyday_pieces(self.analysis) if self.given.is_everyday else pieces(self.analysis),
            "columns": [self.column(c) for c in range(len(lattice.columns))],
            "rows": [self.row(r) for r in range(len(lattice.rows))],
            "classes": self.classes(),
        }

    def column(self, c):
        analysis = self.analysis
        member, said = analysis.member(c), self.given.said
        holder = said(member.rpartition(".")[0] or member)
        own = said(f"{member}()").removesuffix("()") if analysis.is_method(c) else said(member)
        return {
            "label": said(analysis.lattice.columns[c]),
            "kind": analysis.kind(c),
            "holder": holder,
            "name": own.removeprefix(f"{holder}."),
            "line": self.given.shown_line(analysis.column_line(c)),
            "users": len(analysis.rows_of[c]),
            "alone": analysis.only_itself(c),
        }

    def row(self, r):
        label = self.analysis.lattice.rows[r]
        found = MARKED.fullmatch(label)
        last = {"this": "this", "return": "result"}.get(label.rpartition(".")[2], "variable")
        kind = found[1] if found else last
        return {"label": self.given.said(label), "kind": kind, "line": self.given.shown_line(self.analysis.row_lines[r]),
            "needs": sorted(self.analysis.needs[r])}

    def classes(self):
        declared = self.analysis.declared
        labels = self.analysis.lattice.columns
        found = {}
        for name, line in declared.classes.items():
            found[name] = {"name": name, "line": self.given.shown_line(line), "parent": declared.parents.get(name), "columns": []}
        for c, label in enumerate(labels):
            if not label.startswith("is(") and class_of(label) in found:
                found[class_of(label)]["columns"].append(c)
        return list(found.values())


class Places:
    """The tokens of a text at which a row or a column stands."""

    def __init__(self, analysis):
        self.source, self.items = analysis.source, {}
        self.of_line = {}
        for k, token in enumerate(self.source.tokens):
            self.of_line.setdefault(self.source.line_of(token), []).append(k)

    def put(self, k, item):
        self.items.setdefault(k, []).append(item)

    def text(self, k):
        return self.source.tokens[k].text if 0 <= k < len(self.source.tokens) else ""

    def put_first(self, line, fits, item, taken):
        """The first token of the line that fits and is not taken yet."""
        for k in self.of_line.get(line, []):
            if (k, item[0]) not in taken and fits(k):
                taken.add((k, item[0]))
                self.put(k, item)
                return

    def is_declared(self, k, name):
        """Whether the token is a name that stands behind a type."""
        before = self.source.tokens[k - 1] if k else None
        return self.text(k) == name and before is not None and (before.kind == "word" or before.text == "]")


def put_columns(places, analysis):
    for c, label in enumerate(analysis.lattice.columns):
        name, line = analysis.member(c).rpartition(".")[2], analysis.column_line(c)
        method = analysis.is_method(c)
        for k in places.of_line.get(line, []):
            if not label.startswith("is(") and places.is_declared(k, name) and (places.text(k + 1) == "(") == method:
                places.put(k, ["c", c])
                break


def put_row(places, r, label, line, taken):
    """Where a variable, creation, cast or test stands on its line."""
    found = MARKED.fullmatch(label)
    base = found[2].split("[")[0] if found else ""
    name = label.rpartition(".")[2]
    method = label.split(".")[-2] if name in ("this", "return") and label.count(".") > 1 else None
    if found and found[1] == "cast":
        places.put_first(line, lambda k: places.text(k) == base and places.text(k - 1) == "(", ["r", r], taken)
    elif found:
        places.put_first(line, lambda k: places.text(k) == found[1] and places.text(k + 1) == base, ["r", r], taken)
    elif method:
        places.put_first(line, lambda k: places.is_declared(k, method) and places.text(k + 1) == "(", ["r", r, name],
            set())
    else:
        places.put_first(line, lambda k: places.is_declared(k, name) and places.text(k + 1) != "(", ["r", r], taken)


def pieces(analysis):
    """Each line as a list of pieces: a text, and the columns and rows that stand there."""
    places, taken = Places(analysis), set()
    put_columns(places, analysis)
    for r, label in enumerate(analysis.lattice.rows):
        put_row(places, r, label, analysis.row_lines[r], taken)
    source, lines = analysis.source, []
    for number, start in enumerate(source.starts, 1):
        end = source.starts[number] if number < len(source.starts) else len(source.data)
        cuts, at = [], start
        for k in places.of_line.get(number, []):
            if k in places.items:
                token = source.tokens[k]
                cuts.append([source.data[at : token.at].decode(errors="replace")])
                cuts.append([token.text, [item[0] + str(item[1]) for item in places.items[k]]])
                at = token.at + len(token.text.encode(errors="replace"))
        cuts.append([source.data[at:end].decode(errors="replace").rstrip("\r\n")])
        lines.append([cut for cut in cuts if cut[0]])
    return lines


