"""Plans: what each line says, and what a plan names in a program."""
import difflib
import re
from collections import namedtuple

from kaba_match import is_static
from kaba_tools import class_of

NAME = r"[^\W\d][\w$]*|\$[\w$]*"
Line = namedtuple("Line", "number word name things")  # word: class, keep, only or drop; things: Word
Word = namedtuple("Word", "number kind text")  # a thing that a plan names: its line, its kind, and its name

KINDS = {
    "member": (),
    "field": ("fld",),
    "method": ("dcl", "def"),
    "declaration": ("dcl",),
    "body": ("def",),
    "test": ("is",),
    "new": (),
    "variable": (),
    "cast": (),
    "instanceof": (),
}
FORMS = {
    "class": "class NAME: C.f C.m() new C@LINE new C@C.m.x ..",
    "keep": "keep CLASS .. or keep CLASS as NAME",
    "only": "only CLASS ..",
    "drop": "drop empty",
}


class BadPlan(Exception):
    """What is wrong with a plan: a line and a sentence each."""

    def __init__(self, faults):
        super().__init__(faults)
        self.faults = faults


def joined_lines(text):
    """The lines of a plan without comments, with their numbers; one that begins with a blank goes on with the last."""
    found = []
    for number, line in enumerate(text.split("\n"), 1):
        said = re.sub(r"(^|\s)#.*", "", line).rstrip()
        if not said.strip():
            continue
        if said[0] in " \t" and found:
            found[-1].append((number, said))
        else:
            found.append([(number, said)])
    return found


def words_in(parts):
    """The words of a line with their numbers, commas and blanks between them."""
    return [(number, word) for number, text in parts for word in re.split(r"[\s,]+", text.strip()) if word]


class Reader:
    """Reads a plan's text."""

    def __init__(self, text):
        self.faults, self.lines = [], []
        for parts in joined_lines(text):
            number, words = parts[0][0], words_in(parts)
            line = self.line(number, words)
            if line:
                self.lines.append(line)
        self.check_names()

    def fault(self, number, sentence):
        self.faults.append((number, sentence))

    def line(self, number, words):
        first = words[0][1]
        if first not in FORMS:
            near = difflib.get_close_matches(first, FORMS, 1)
            forms = FORMS[near[0]] if near else "; ".join(FORMS.values())
            return self.fault(number, f"no line begins with `{first}`: {forms}")
        return getattr(self, f"{first}_line")(number, words[1:])

    def class_line(self, number, words):
        text = " ".join(word for _, word in words)
        found = re.match(rf"({NAME})\s*:\s*", text)
        if not found:
            return self.fault(number, f"a name and a colon stand behind `class`: {FORMS['class']}")
        while words and ":" not in words[0][1]:
            words = words[1:]
        first = words[0][1].partition(":")[2]
        words = ([(words[0][0], first)] if first else []) + words[1:]
        things = self.things(words)
        if not things and not any(at == number for at, _ in self.faults):
            return self.fault(number, f"class {found[1]} names nothing: {FORMS['class']}")
        return Line(number, "class", found[1], things)

    def things(self, words):
        """The things that words name; some kinds are two words."""
        found, k = [], 0
        while k < len(words):
            number, word = words[k]
            k += 1
            if word in KINDS and word != "member":
                if k == len(words):
                    self.fault(number, f"a name stands behind `{word}`")
                    break
                found.append(Word(number, word, words[k][1]))
                k += 1
            else:
                found.append(Word(number, "member", word))
        return found

    def keep_line(self, number, words):
        names = [word for _, word in words]
        if len(names) == 3 and names[1] == "as":
            return Line(number, "keep", names[2], [Word(number, "class", names[0])])
        return self.classes_line(number, "keep", words)

    def only_line(self, number, words):
        return self.classes_line(number, "only", words)

    def classes_line(self, number, word, words):
        if not words:
            return self.fault(number, f"a class stands behind `{word}`: {FORMS[word]}")
        return Line(number, word, None, [Word(at, "class", name) for at, name in words])

    def drop_line(self, number, words):
        if [word for _, word in words] != ["empty"]:
            return self.fault(number, f"what is dropped is what is empty: {FORMS['drop']}")
        return Line(number, "drop", None, [])

    def check_names(self):
        """No two classes have one name."""
        seen = {}
        for line in self.lines:
            if line.word == "class" and seen.setdefault(line.name, line.number) != line.number:
                sentence = f"class {line.name} stands in line {seen[line.name]} too: put all that it has in one line"
                self.fault(line.number, sentence)


class Names:
    """What the words of a plan name in a program."""

    def __init__(self, program, faults):
        self.program, self.faults = program, faults
        self.analysis, self.lattice = program.analysis, program.lattice

    def fault(self, word, sentence):
        self.faults.append((word.number, sentence))
        return set()

    def nodes(self, word):
        """The nodes where a thing stands."""
        if word.kind in ("new", "cast", "instanceof", "variable"):
            rows = self.rows(word)
            return {self.program.node_of_row[r] for r in rows}
        return self.member_nodes(word)

    def member_nodes(self, word):
        text = word.text
        plain = text[:-2] if text.endswith("()") else text
        if word.kind == "test":
            columns = self.program.member_columns(plain, KINDS["test"])
        elif word.kind != "member":
            columns = self.program.member_columns(plain, KINDS[word.kind])
        else:
            columns = [] if text.endswith("()") else self.program.member_columns(plain, KINDS["field"])
            columns = columns or self.program.member_columns(plain, KINDS["method"])
        if not columns:
            return self.fault(word, self.unknown_member(word, plain))
        found = {self.program.node_of_column[c] for c in columns if c in self.program.node_of_column}
        return found or self.fault(word, f"nothing needs `{text}`: it will not be written, so leave it out")

    def unknown_member(self, word, plain):
        columns = self.lattice.columns
        known = sorted({self.analysis.member(c) for c, label in enumerate(columns) if "." in label})
        if word.kind == "test":
            return f"there is no cast, instanceof or array of `{plain}`"
        if "." not in plain:
            if plain in self.program.classes:
                return f"`{plain}` is a class: members are written {plain}.NAME; `keep {plain}` leaves the class whole"
            owners = [name for name in known if name.split(".")[1] == plain]
            example = f", such as {owners[0]}" if owners else ""
            return f"`{word.text}` is no member: write its class before it{example}"
        owner, _, member = plain.partition(".")
        if owner not in self.program.classes:
            return f"the program has no class {owner}{self.near(owner, self.program.classes)}"
        if f"{owner}.{member}" in self.static_members():
            return f"`{plain}` is static, and stays in {owner}"
        kind = {"declaration": "declaration of a method", "body": "body of a method"}.get(word.kind, word.kind)
        return f"the program has no {kind} {plain}{self.near(plain, known)}"

    def static_members(self):
        members = [(it.name.name, member) for it in self.program.tree for member in it.members]
        return {f"{owner}.{member.name.name}" for owner, member in members if is_static(member)}

    def near(self, name, known):
        found = difflib.get_close_matches(name, known, 1)
        return f"; do you mean {found[0]}?" if found else ""

    def rows(self, word):
        """The rows of a creation, a cast, a test or a variable."""
        rows = self.lattice.rows
        if word.kind == "variable":
            found = [r for r, label in enumerate(rows) if label == word.text]
            near = self.near(word.text, [row for row in rows if " " not in row])
            return found or self.fault(word, f"the program has no variable {word.text}{near}")
        name, at, place = word.text.partition("@")
        if not at or not place:
            named = name or "C"
            forms = f"{word.kind} {named}@LINE" + (f" or new {named}@VARIABLE" if word.kind == "new" else "")
            return self.fault(word, f"`{word.kind} {word.text}` lacks its place: {forms}")
        if name.rstrip("[]") not in self.program.classes:
            return self.fault(word, f"the program has no class {name}{self.near(name, self.program.classes)}")
        if place.isdecimal():
            found = [r for r, label in enumerate(rows) if label == f"{word.kind} {word.text}"]
            return found or self.fault(word, self.no_row(word, name, place))
        if word.kind != "new":
            return self.fault(word, f"a number of a line stands behind @ in `{word.kind} {word.text}`")
        made = [(r, into) for r, into in self.program.creations.items() if rows[r].startswith(f"new {name}@")]
        found = [r for r, into in made if place in into]
        return found or self.fault(word, self.no_creation(name, place))

    def no_row(self, word, name, line):
        lines = [label.rsplit("@", 1)[1] for label in self.lattice.rows if label.startswith(f"{word.kind} {name}@")]
        what = {"new": "no {} is created", "cast": "there is no cast to {}", "instanceof": "there is no test for {}"}
        elsewhere = f", but in line{'s' if len(lines) > 1 else ''} {', '.join(lines)}" if lines else ""
        return f"{what[word.kind].format(name)} in line {line}{elsewhere}"

    def no_creation(self, name, place):
        rows = self.lattice.rows
        made = [labels for r, labels in self.program.creations.items() if rows[r].startswith(f"new {name}@")]
        into = sorted({label for labels in made for label in labels})
        elsewhere = f", but into {', '.join(into[:6])}" if into else ""
        return f"no {name} is put into {place} where it is created{elsewhere}"

    def classes(self, words):
        for word in words:
            if word.text not in self.program.classes:
                self.fault(word, f"the program has no class {word.text}{self.near(word.text, self.program.classes)}")
        return [word.text for word in words if word.text in self.program.classes]


class Plan:
    """A plan over a program: each class line with its nodes, and the other lines; BadPlan where it is none."""

    def __init__(self, data, program):
        try:
            text = data.decode("utf-8-sig")
        except UnicodeDecodeError as error:
            raise BadPlan([(1 + data[: error.start].count(b"\n"), "this is not UTF-8")]) from None
        read = Reader(text)
        names = Names(program, read.faults)
        self.lines = {line.name: line for line in read.lines if line.word == "class"}
        self.named, self.kept, self.only = {}, {}, {}  # of each line's name its things; of each class its line
        self.new_names = {}
        for line in read.lines:
            if line.word == "class":
                self.named[line.name] = [(word, names.nodes(word)) for word in line.things]
            for name in names.classes(line.things) if line.word in ("keep", "only") else []:
                (self.kept if line.word == "keep" else self.only).setdefault(name, line.number)
                if line.name:
                    self.new_names[name] = line.name
        for name in self.kept.keys() & self.only.keys():
            sentence = f"class {name} is to stay whole in one line and to come apart in another"
            read.fault(max(self.kept[name], self.only[name]), sentence)
        self.drops_empty = any(line.word == "drop" for line in read.lines)
        if read.faults:
            raise BadPlan(sorted(read.faults))


def member_words(program, columns):
    """How a plan names these columns: a method once where both its columns are there."""
    kinds = {}
    for c in columns:
        label = program.lattice.columns[c]
        kinds.setdefault(label.split("(")[1].rstrip(")") if label[:3] != "is(" else label, []).append(label[:3])
    words = []
    for name, of_name in kinds.items():
        if name.startswith("is("):
            words.append(f"test {name[3:-1]}")
            continue
        whole = {"fld": "fld" in of_name, "dcl": "dcl" in of_name, "def": "def" in of_name}
        words += [name] if whole["fld"] else []
        has_body = program.column(f"def({name})") is not None
        if whole["dcl"] and (whole["def"] or not has_body):
            words.append(f"{name}()")
        else:
            words += [f"declaration {name}"] if whole["dcl"] else []
            words += [f"body {name}"] if whole["def"] else []
    return words


def owner_of(program, c):
    return class_of(program.lattice.columns[c])
