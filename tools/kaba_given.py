"""What a tool was given: a text of Kaba's language, or everyday Java, which is brought in first and spoken of as it is.

`given(path)` takes a file that the program takes as it is. A folder, and a file that it refuses and tools/from-java
brings in, is everyday Java: the tools then work on the text that is written of it, and `said` puts the lines and the
names of the sources in the place of the text's own.
"""
import atexit
import json
import os
import re
import shutil
import sys
import tempfile
from pathlib import Path

from from_java_tool import LIBRARY, brought, has_java, sources_of
from kaba_given_plan import UNKNOWN, InnerPlan
from kaba_tools import fail, kaba

REFUSED = 65
WORD = r"[A-Za-z_$][\w$]*"
LABEL = rf"{WORD}(?:\.{WORD})*(?:\(\))?"
# A creation, a cast or a test; a number of lines; a method's column; a label.
SPOKEN = re.compile(
    rf"\b(new|cast|instanceof) ({WORD})((?:\[\])*)@(\d+)|\b(line|lines) (\d+(?:(?:, | and )\d+)*)"
    rf"|\b(dcl|def)\(({WORD}\.{WORD})\)|({LABEL})"
)


class Plain:
    """A file of Kaba's language, spoken of as it is."""

    is_everyday = False

    def __init__(self, file):
        self.file = self.name = file
        self.files = [file]

    def again(self):
        """The same as it stands on disk now."""
        return self

    def said(self, text):
        return text

    def line_words(self, line):
        """A line as a report says it."""
        return f"line {line}"

    def place_json(self, line):
        return {"line": line}

    def inner_class(self, name):
        return name

    def inner_plan(self, data):
        """The bytes of a plan in the words of the text."""
        return data

    def outer_plan(self, text):
        return text

    def shown_classes(self, names):
        return list(names)

    def shown_lines(self, text):
        """The lines that stand beside a report: those of the text."""
        return text.split("\n")

    def shown_line(self, line):
        """Where a line of the text stands among these."""
        return line


class Everyday:
    """Files of everyday Java, the text that was written of them, and the map between both."""

    is_everyday = True

    def __init__(self, name, files, file, found):
        self.name, self.files, self.file = name, files, file
        self.places = [place and tuple(place) for place in found["lines"]]
        self.classes, self.members, self.variables = found["classes"], found["members"], found["variables"]
        # Labels of the text and what is said for them; methods without brackets stand apart, since a field may have the name.
        self.labels, self.methods = {name: it["said"] for name, it in self.classes.items()}, {}
        self.calls = {}  # of a method's name in the text what is said for it, in whatever class
        for label, it in self.members.items():
            holder, _, member = label.partition(".")
            said = it.get("said") or it["was"] or member
            self.labels[label] = f"{self.labels[holder]}.{said}"
            if label.endswith("()"):
                self.methods[label[:-2]] = self.labels[label]
                self.labels[label] += "" if said.endswith(")") else "()"
                self.calls.setdefault(member[:-2], set()).add(it["was"] and said)
        for label, it in self.variables.items():
            self.labels[label] = f"{self.methods[label.rpartition('.')[0]]}.{it['was']}"
        self.text = Path(file).read_text(encoding="utf-8").split("\n")
        self.inner = self.shown = None

    # ---- from the text to the sources

    def place(self, line):
        """The file, the line and the column of the sources from which a line of the text comes, or nothing."""
        return self.places[line - 1] if 1 <= line <= len(self.places) else None

    def place_words(self, line, exact=False):
        """A place as labels have it: the line, with its file where there are several."""
        place = self.place(line)
        if place is None:
            return str(line % UNKNOWN)
        file = Path(place[0])
        is_own = not file.is_relative_to(LIBRARY)
        front = f"{file.name}:" if len(self.files) > 1 or not is_own else ""
        return f"{front}{place[1]}" + (f":{place[2]}" if exact else "")

    def line_words(self, line):
        words = self.place_words(line)
        return f"line {words}" if words.isdigit() else words

    def place_json(self, line):
        place = self.place(line)
        return {"line": place[1] if place else 0, "file": place[0] if place else None}

    def label(self, label):
        """The name of the sources for a label of the text."""
        if label in self.labels or label in self.methods:
            return self.labels.get(label) or self.methods[label]
        if label.endswith("()"):
            return self.of_call(label)
        front, dot, last = label.rpartition(".")
        if dot and front in self.methods:
            return f"{self.methods[front]}.{last}"
        first, dot, rest = label.partition(".")
        return f"{self.labels[first]}.{rest}" if dot and first in self.classes else label

    def of_call(self, label):
        """A method's name without its class, where all methods of the name are called the same."""
        found = self.calls.get(label[:-2], set())
        said = min(found, key=str) if len(found) == 1 else None
        return label if said is None else said if said.endswith(")") else f"{said}()"

    def of_method(self, label):
        return self.methods.get(label) or self.label(label)

    def creation(self, kind, name, dims, line):
        """A creation, a cast or a test; with its column where another one of the line would be called the same."""
        place = self.place(line)
        sign = f"({name}{dims})" if kind == "cast" else f"{kind} {name}"
        lines = self.lines_of(place) if place else []
        others = [other for other in lines if other != line and sign in self.text[other - 1]]
        exact = any(self.places[other - 1][2] != place[2] for other in others)
        return f"{kind} {self.label(name)}{dims}@" + self.place_words(line, exact)

    def lines_of(self, place):
        """The lines of the text that come from the same line."""
        if self.inner is None:
            self.inner = {}
            for number, it in enumerate(self.places, 1):
                if it:
                    self.inner.setdefault(it[:2], []).append(number)
        return self.inner[place[:2]]

    def said(self, text):
        """A text of a tool with the lines and names of the sources."""
        return SPOKEN.sub(self.spoken, text)

    def spoken(self, found):
        kind, name, dims, line, word, lines, side, method, label = found.groups()
        if kind:
            return self.creation(kind, name, dims, int(line))
        if word:
            words = ", ".join(dict.fromkeys(self.place_words(int(it)) for it in re.findall(r"\d+", lines)))
            return f"{word} {words}" if words[0].isdigit() else words
        return f"{side}({self.of_method(method)})" if side else self.label(label)

    def again(self):
        return given(self.name, True)

    # ---- the sources beside a report

    def sources(self):
        """The lines of each file; where there are several, behind a line with its name."""
        if self.shown is None:
            self.shown, self.front = [], {}
            for file in self.files:
                self.shown += [f"// {file}"] if len(self.files) > 1 else []
                self.front[file] = len(self.shown)
                self.shown += Path(file).read_text(encoding="utf-8", errors="replace").rstrip("\n").split("\n")
        return self.shown

    def shown_lines(self, _text):
        return self.sources()

    def shown_line(self, line):
        self.sources()
        place = self.place(line)
        return self.front[place[0]] + place[1] if place and place[0] in self.front else 0

    # ---- from the sources to the text

    def inner_class(self, name):
        """The class of the text that has objects of a class of the sources."""
        fits = [inner for inner, it in self.classes.items() if it["said"] == name and not it["static"]]
        return fits[0] if fits else name

    def shown_classes(self, names):
        """The classes of the sources' own that have objects."""
        own = [name for name in names if not self.of(name).get("library", True) and not self.of(name)["static"]]
        return own or list(names)

    def of(self, name):
        return self.classes.get(name, {})

    def inner_plan(self, data):
        """The bytes of a plan in the words of the sources as those of one in the words of the text, line by line."""
        try:
            return InnerPlan(self).text(data.decode("utf-8-sig")).encode()
        except UnicodeDecodeError:
            return data

    def outer_plan(self, text):
        """A plan in the words of the text as one in those of the sources."""
        return self.said(text)


def is_taken(file):
    """Whether the program takes a file as it is; also where it cannot read it."""
    return kaba("run", file, "0")[0] != REFUSED


def bring(path):
    """The everyday Java of a path, or nothing and what stands in the way."""
    files = sources_of([path])
    folder = tempfile.mkdtemp(prefix="kaba-everyday-")
    atexit.register(shutil.rmtree, folder, ignore_errors=True)
    stem = Path(path).resolve().stem
    file, where = os.path.join(folder, f"{stem}.java"), os.path.join(folder, "map.json")
    done = brought(files, file, where)
    said = done.stderr.decode(errors="replace")
    if done.returncode:
        return None, said
    if said:
        sys.stderr.write(said)
    with open(where, encoding="utf-8") as opened:
        return Everyday(path, files, file, json.load(opened)), ""


def given(path, is_everyday=False):
    """What the path names; ends the tool where it is everyday Java that cannot be brought in."""
    if not is_everyday and not os.path.isdir(path):
        if not str(path).endswith(".java") or is_taken(path) or not has_java():
            return Plain(path)
        found, _ = bring(path)
        return found or Plain(path)
    found, said = bring(path)
    if found is None:
        sys.stderr.write(said)
        fail(f"{path} cannot be brought in", REFUSED)
    return found
