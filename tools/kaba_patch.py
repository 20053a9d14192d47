"""The written program as a change of the old text: where each type stands, and in which order."""
import difflib
import re

from java_tree import HasConstructor, NoTree, tree_of
from kaba_layout import LINE_END, Pieces
from kaba_match import NoMatch, is_static, placed_members
from kaba_tools import Source, fail

FILE_PART = re.compile(r"(?s).*(?:\r\n|\n|\r)[ \t\f]*(?:\r\n|\n|\r)")


def lines_of(text):
    """The lines of a text with their ends, which are line feeds."""
    return re.findall(r"[^\n]*\n|[^\n]+", text)


def changed_lines(old, new):
    """How many lines of the one and the other text are not in both."""
    lines = difflib.unified_diff(lines_of(old), lines_of(new), n=0)
    return sum(line[0] in "+-" for line in lines) - (2 if old != new else 0)


class Patch:
    """The changed text of a program.

    Each written type has a home: the old class of its name, or the one from which most of its text comes. The type
    that has the class's name, or the most of it, is what the class becomes; the others of this home stand beside it.
    """

    def __init__(self, source, written, nodes, labels):
        self.source = source
        old, new = tree_of(source), tree_of(written)
        self.olds = {it.name.name: it for it in old}
        self.news = [it.name.name for it in new]
        self.placed = placed_members(self.olds, new, nodes, labels)
        self.origins = {node["name"]: node["origin"] for node in nodes}
        self.pieces = Pieces(source, old, written, new, self.placed)
        self.homes = {name: self.home_of(name) for name in self.news}
        self.heirs = {home: self.heir_of(home) for home in self.olds}

    def size(self, name, home):
        """How many tokens of an old class stand in a type."""
        members = [it.old for it in self.placed[name] if it.owner == home]
        return sum(member.last - member.first + 1 for member in members)

    def home_of(self, name):
        if name in self.olds:
            return name
        best = max(self.olds, key=lambda home: self.size(name, home))
        origin = self.origins.get(name)
        return best if self.size(name, best) else origin if origin in self.olds else None

    def heir_of(self, home):
        """The type that an old class becomes."""
        of_home = [name for name in self.news if self.homes[name] == home]
        return max(of_home, key=lambda name: (name == home, self.size(name, home)), default=None)

    def orders(self, home):
        """Orders in which the types of a home may stand."""
        of_home = [name for name in self.news if self.homes[name] == home]
        heir = self.heirs[home]

        def place(name, kinds):
            own = [it.old.first for it in self.placed[name] if it.owner == home and it.old.kind in kinds]
            return min(own, default=len(self.source.tokens))

        for kinds in (["Method", "FieldMember"], ["Method"]):
            by_place = sorted(of_home, key=lambda name: place(name, kinds))
            yield sorted(by_place, key=lambda name: name != heir)
            yield by_place

    def text(self):
        """The changed text: of each home that order of its types that changes the fewest lines."""
        old = self.source.data.decode()
        chosen = {home: next(self.orders(home), []) for home in self.olds}
        for home in self.olds:
            tried = []
            for order in self.orders(home):
                if order not in tried:
                    tried.append(order)
            if len(tried) > 1:
                chosen[home] = min(tried, key=lambda order: changed_lines(old, self.in_order({**chosen, home: order})))
        return self.in_order(chosen)

    def in_order(self, chosen):
        """The text with the types of each home in this order."""
        text, end = self.pieces.text, self.pieces.line_end
        between = end * 2 if self.pieces.spaced_types else end
        top, parts = self.file_part(chosen), []
        for home, order in chosen.items():
            for name in order:
                if name != self.heirs[home]:
                    parts.append(between + self.pieces.new_type(name))
                    continue
                lead = text.lead(self.olds[home].first)
                if self.olds[home].first == 0 and (parts or top):
                    lead = (between if parts else "") + lead[len(top) :]
                parts.append(lead + self.pieces.old_type(name, home))
        parts += [between + self.pieces.new_type(name) for name in self.news if self.homes[name] is None]
        if parts and (top or LINE_END.match(parts[0])):
            parts[0] = parts[0].lstrip("\r\n") if not self.begins_as_before(chosen) else parts[0]
        return top + "".join(parts) + text.lead(len(text.tokens))

    def begins_as_before(self, chosen):
        """Whether the first type of the text is what the first class became."""
        home = next(iter(self.olds))
        return bool(chosen[home]) and chosen[home][0] == self.heirs[home]

    def file_part(self, chosen):
        """What stands at the top of the file, where its first class does not: all up to the last empty line there."""
        found = FILE_PART.match(self.pieces.text.gaps[0])
        return found[0] if found and not self.begins_as_before(chosen) else ""

    def left_out(self):
        """The members and classes of the old text that are not written, each with its line."""
        kept = {id(it.old) for members in self.placed.values() for it in members}
        for name, it in self.olds.items():
            if self.heirs[name] is None:
                yield f"class {name}, line {self.source.line_of(self.source.tokens[it.name.at])}"
            for member in it.members:
                if id(member) not in kept and not is_static(member):
                    what = "method" if member.kind == "Method" else "field"
                    line = self.source.line_of(self.source.tokens[member.name.at])
                    yield f"{what} {name}.{member.name.name}, line {line}"


def patch_of(source, written, nodes, labels):
    """The patch of a program's text to what was written of it, over the nodes after the steps to the tree."""
    try:
        return Patch(source, Source(written), nodes, labels)
    except HasConstructor as error:
        fail(str(error), 75)
    except (NoTree, NoMatch) as error:
        fail(f"the written program is not that of the old text ({type(error).__name__}: {error})", 70)
