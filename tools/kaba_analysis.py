"""What the analysis of a program shows: its lattice and its text, with each row and column in words and lines."""
from kaba_given import Plain
from kaba_tools import BadLattice, Declarations, Lattice, Source, bytes_of, class_of, fail, fail_as, kaba

KINDS = {"fld": "field", "dcl": "declaration", "def": "body", "is": "mark"}
NO_CLASS = ("int", "boolean", "char", "String", "void")


class Analysis:
    """A program's lattice, its text, and what stands where in both."""

    def __init__(self, file, source, lattice):
        self.file, self.source, self.lattice = file, source, lattice
        self.given = Plain(file)
        self.declared = Declarations(source)
        self.needs = [set() for _ in lattice.rows]
        for k, rows in enumerate(lattice.own_rows):
            for r in rows:
                self.needs[r] |= lattice.intents[k]
        self.rows_of = [[] for _ in lattice.columns]
        for r, needs in enumerate(self.needs):
            for c in needs:
                self.rows_of[c].append(r)
        self.row_lines = self.lines_of_rows()

    def lines_of_rows(self):
        """The line of each row: of a creation, cast or test its own, else that of the variable so called; of an implied one its class's."""
        left = {}
        for variable in self.declared.variables:
            if variable.type.split("[")[0] not in NO_CLASS:
                left.setdefault(variable.label, []).append(variable.line)
        labels = self.lattice.rows
        classes = self.declared.classes
        at = lambda label: (left.get(label) or [classes.get(label.split(".")[0], 0)]).pop(0)
        return [int(label.rsplit("@", 1)[1]) if "@" in label else at(label) for label in labels]

    def kind(self, c):
        """What a column is: field, declaration, body or mark."""
        return KINDS[self.lattice.columns[c].split("(")[0]]

    def member(self, c):
        """What a column is a column of, as C.m."""
        return self.lattice.columns[c].split("(")[1].rstrip(")")

    def column_line(self, c):
        """The line of a member; that of its class where it is not written, as an implied constructor."""
        name = self.member(c)
        key = f"{name}()" if self.is_method(c) else name
        return self.declared.members.get(key) or self.declared.classes.get(name.split(".")[0], 0)

    def is_method(self, c):
        return self.lattice.columns[c][:3] in ("dcl", "def")

    def column_words(self, c):
        """A column in words, without its class: `field name`, `body of where()`."""
        name = self.member(c).rsplit(".", 1)[-1]
        return f"{self.kind(c)} of {name}()" if self.is_method(c) else f"{self.kind(c)} {name}"

    def members_words(self, columns, holder):
        """Columns in words, a method with both its columns as one; those of other classes with their class."""
        said = {}
        for c in columns:
            said.setdefault((self.member(c), self.is_method(c)), []).append(self.kind(c))
        words = []
        for (member, _), kinds in said.items():
            name = member.split(".")[1] if member.split(".")[0] == holder else member
            of_method = f"method {name}()" if len(kinds) == 2 else f"{kinds[0]} of {name}()"
            words.append(f"field {name}" if kinds == ["field"] else of_method)
        return words

    def columns_of(self, name):
        """The columns of a class's own members."""
        labels = self.lattice.columns
        return [c for c, label in enumerate(labels) if not label.startswith("is(") and class_of(label) == name]

    def inherited(self, name):
        """The columns of the class and of those that it extends, the class's own first."""
        found, seen = [], set()
        while name and name not in seen:
            seen.add(name)
            found += self.columns_of(name)
            name = self.declared.parents.get(name)
        return found

    def only_itself(self, c):
        """Whether the column is needed, but only by the this of its own method."""
        rows = [self.lattice.rows[r] for r in self.rows_of[c]]
        return rows == [self.member(c) + ".this"]

    def creations(self, name):
        return [r for r, label in enumerate(self.lattice.rows) if label.startswith(f"new {name}@")]

    def groups(self, name):
        """The needed members of a class in groups that exactly the same rows need, in the order of the columns."""
        found = {}
        for c in self.columns_of(name):
            if self.rows_of[c] and not self.only_itself(c):
                found.setdefault(tuple(self.rows_of[c]), []).append(c)
        return [(set(rows), columns) for rows, columns in found.items()]

    def split(self, name):
        """What a split would part: the groups that meet every other one, and those that hang together without them."""
        apart, common = self.groups(name), []
        while True:
            meets_all = [group for group in apart if all(group[0] & other[0] for other in apart)]
            if not meets_all or len(meets_all) == len(apart):
                break
            common += meets_all
            apart = [group for group in apart if group not in meets_all]
        parts = []
        for rows, columns in apart:
            touching = [part for part in parts if part[0] & rows]
            parts = [part for part in parts if part not in touching]
            joined = sum((part[1] for part in touching), []) + columns
            parts.append((rows.union(*(part[0] for part in touching)), joined))
        return sorted(c for _, columns in common for c in columns), sorted(sorted(columns) for _, columns in parts)


def analyse_given(given, most=16384):
    """The analysis of what a tool was given."""
    analysis = analyse(given.file, most)
    analysis.given = given
    return analysis


def analyse(file, most=16384):
    """The analysis of a file, or one line and the program's status."""
    data = bytes_of(file)
    status, output, error = kaba("lattice", "-j", "-c", str(most), file)
    if status:
        fail_as(status, error, file)
    try:
        return Analysis(file, Source(data), Lattice(output))
    except BadLattice as error:
        fail(f"the program's answer is not the JSON of a lattice ({error})", 65)
