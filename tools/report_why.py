"""Why a row needs a column, in words: the derivation that `kaba why` prints."""
import re

from kaba_tools import fail, kaba

STEP = re.compile(r"s(\d+) (?:r(\d+) c(\d+)|(point|cell) (\d+) site (\d+)) by ([PT]\d+)((?: s\d+)*)")
NUMBERED = {"row": re.compile(r"r(0|[1-9]\d*)"), "column": re.compile(r"c(0|[1-9]\d*)")}
NO_ENTRY = 71
IN_WORDS = {
    "P1": "it is made there",
    "P2": "it is assigned, passed or read from there",
    "P3": "it is read from a field or an element that may hold it",
    "P4": "it is stored there",
    "P5": "a method may be called on it, whose `this` it then is",
    "P6": "it is passed to a parameter of a method that may run",
    "P7": "a method that may run returns it",
    "P8": "a cast or a test lets it through",
    "T1": "a field is read or written through it",
    "T2": "a method is called on it",
    "T3": "a call runs this body where its receiver is that object",
    "T4": "it is the `this` of this body",
    "T5": "who needs a body needs its declaration",
    "T6": "who needs a body needs what the body's `this` needs",
    "T7": "a call of `super` runs this body",
    "T8": "it is assigned, passed or returned to what needs it",
    "T9": "what may hold the object needs it",
    "T10": "something needs this member and one that it hides, so whoever needs the one needs the other",
    "T11": "a cast, a test or an array has this type",
}


class Step:
    """A step of a trail: an entry (row and column) or a place that may hold the objects of a creation, its rule, and the earlier steps that it takes."""

    def __init__(self, found):
        _, row, column, kind, place, site, self.rule, taken = found.groups()
        self.entry = (int(row), int(column)) if row else None
        self.held = (kind, int(place), int(site)) if kind else None
        self.taken = [int(word[1:]) for word in taken.split()]


def number_of(analysis, what, word):
    """The number of a row or a column that is named by its number or by its label; a line that it is not there else."""
    labels = analysis.lattice.rows if what == "row" else analysis.lattice.columns
    found = NUMBERED[what].fullmatch(word)
    if found:
        return int(found.group(1))
    said = [k for k, label in enumerate(labels) if word in (label, analysis.given.said(label))]
    if len(said) == 1:
        return said[0]
    if said:
        letter = what[0]
        fail(f"{word} is the label of {len(said)} {what}s: say which by its number, {', '.join(f'{letter}{k}' for k in said)}")
    fail(f"no {what} is {word}: name one as `kaba table` prints it, by its number or its label")


def trail(file, row, column):
    """The steps of the derivation of an entry, or nothing where there is no such entry."""
    status, output, error = kaba("why", file, f"r{row}", f"c{column}")
    if status == NO_ENTRY:
        return None
    if status:
        fail(error or f"the program ends with {status}", status)
    return [Step(STEP.fullmatch(line)) for line in output.decode().splitlines()[1:]]


class Words:
    """What the steps of a trail say of the source."""

    def __init__(self, analysis, steps):
        self.analysis, self.steps = analysis, steps
        self.creations = [r for r, label in enumerate(analysis.lattice.rows) if label.startswith("new ")]
        # A rule that hands on what a row needs tells whose the place is that holds the object.
        self.holders = {}
        for step in steps:
            if step.rule == "T9":
                held, needs = (steps[k] for k in step.taken)
                self.holders[held.held[:2]] = needs.entry[0]

    def row(self, r):
        label, line = self.analysis.lattice.rows[r], self.analysis.row_lines[r]
        return label if "@" in label or not line else f"{label} (line {line})"

    def column(self, c):
        return f"the {self.analysis.column_words(c)} of {self.analysis.member(c).split('.')[0]}"

    def object(self, site):
        return f"the object of {self.analysis.lattice.rows[self.creations[site]]}" if site < len(self.creations) else f"the object of creation {site}"

    def place(self, kind, number):
        holder = self.holders.get((kind, number))
        if holder is not None:
            return self.row(holder)
        return "an expression" if kind == "point" else "a field or an element"

    def claim(self, step):
        if step.entry:
            return f"{self.row(step.entry[0])} needs {self.column(step.entry[1])}"
        kind, number, site = step.held
        return f"{self.place(kind, number)} may hold {self.object(site)}"

    def line(self, number, step):
        since = f" (by {' and '.join(f'step {k + 1}' for k in step.taken)})" if step.taken else ""
        return f"  {number + 1}. {self.claim(step)}, since {IN_WORDS[step.rule]}{since}"


def section(analysis, row, column):
    """The heading and the lines that tell why the row of this number needs the column of this number."""
    lattice = analysis.lattice
    if row >= len(lattice.rows):
        fail(f"there is no row r{row}: there are {len(lattice.rows)}")
    if column >= len(lattice.columns):
        fail(f"there is no column c{column}: there are {len(lattice.columns)}")
    steps = trail(analysis.file, row, column)
    if steps is None:
        fail(f"{analysis.given.said(lattice.rows[row])} does not need {analysis.given.said(lattice.columns[column])}", NO_ENTRY)
    words = Words(analysis, steps)
    heading = f"why {words.row(row)} needs {words.column(column)}"
    return heading, [words.line(number, step) for number, step in enumerate(steps)]
