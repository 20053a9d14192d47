"""Plans in the words of everyday Java: each name and place as the text has it that was written of the sources."""
import re

UNKNOWN = 10000000  # added to a line of the sources that no line of the text comes from
WORD = r"[A-Za-z_$][\w$]*"
TYPES = r"(?:<[\w$.,<>\[\]?]*>)?"
CLASS = rf"{WORD}(?:\.{WORD})*{TYPES}"
PARAMETERS = r"(?:\([\w$.,<>\[\]]*\))?"
LABEL = rf"{CLASS}(?:\.{WORD})*{PARAMETERS}(?:\.{WORD})*"
# A comment; a creation, a cast or a test; a variable; a label.
THING = re.compile(
    rf"(#.*)|\b(new|cast|instanceof)(\s+)({CLASS})((?:\[\])*)@([\w$.:<>,()]+)|\b(variable)(\s+)({LABEL})|({LABEL})"
)
PLACE = re.compile(r"(?:(.*\.java):)?(\d+)(?::(\d+))?")
HEAD = re.compile(rf"(\s*class\s+{WORD}\s*:)(.*)", re.S)


class InnerPlan:
    """Turns a plan's words into those of the text."""

    def __init__(self, everyday):
        self.everyday, self.inner = everyday, {}
        for label, said in [*everyday.labels.items(), *everyday.methods.items()]:
            self.inner.setdefault(said, []).append(label)

    def text(self, text):
        return "\n".join(map(self.line, text.split("\n")))

    def line(self, line):
        found = HEAD.fullmatch(line)
        return found[1] + THING.sub(self.thing, found[2]) if found else THING.sub(self.thing, line)

    def thing(self, found):
        comment, kind, gap, name, dims, place, variable, space, label, alone = found.groups()
        if comment:
            return comment
        if kind:
            return self.creation(kind, gap, name, dims, place)
        if variable:
            return " ".join(f"{variable}{space}{it}" for it in self.labels(label))
        return self.member(alone)

    def creation(self, kind, gap, name, dims, place):
        at, found = PLACE.fullmatch(place), []
        for it in self.objects(name):
            sign = f"({it}{dims})" if kind == "cast" else f"{kind} {it}"
            places = self.lines(sign, *at.groups()) if at else self.labels(place)
            found += [f"{kind}{gap}{it}{dims}@{where}" for where in places]
        return " ".join(found)

    def objects(self, name):
        """The classes of the text for one of the sources, those that have objects."""
        found = [it for it in self.inner.get(name, []) if it in self.everyday.classes]
        return [it for it in found if not self.everyday.classes[it]["static"]] or [name]

    def lines(self, sign, file, line, column):
        """The lines of the text of a place of the sources in which a sign stands; where there is none, a number above all."""
        found = []
        for number, place in enumerate(self.everyday.places, 1):
            fits = place and str(place[1]) == line and column in (None, str(place[2]))
            own = place and (place[0] in self.everyday.files if file is None else f"/{place[0]}".endswith(f"/{file}"))
            if fits and own and sign in self.everyday.text[number - 1]:
                found.append(number)
        return found or [UNKNOWN + int(line)]

    def labels(self, label):
        """The labels of the text for a variable or a field of the sources."""
        found = [it for it in self.inner.get(label, []) if it in self.everyday.variables or it in self.everyday.members]
        if found:
            return found
        front, _, last = label.rpartition(".")
        return [f"{it}.{last}" for it in self.inner.get(front, []) if it in self.everyday.methods] or [label]

    def member(self, label):
        """A member or a class."""
        found = self.inner.get(label, [])
        if any(it in self.everyday.classes for it in found):
            return self.objects(label)[0]
        methods = [it for it in found if it.endswith("()")]
        fields = [it for it in found if it in self.everyday.members and it not in methods]
        methods = methods or [f"{it}()" for it in found if it in self.everyday.methods]
        wanted = methods if label.endswith(")") else fields or methods
        return " ".join(wanted) if wanted else label
