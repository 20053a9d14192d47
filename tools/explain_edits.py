"""Refused edits in words: what a hierarchy would be after an edit, and what an obligation says of it."""
import re

from kaba_names import KEYWORDS, KNOWN


class After:
    """The hierarchy as an edit would make it: its order, and where columns and rows stand."""

    def __init__(self, before, edit):
        self.before, self.edit = before, edit
        self.nodes = {node["number"]: node for node in before["nodes"]}
        numbers = [n for kind, n in edit.numbers if kind == "n"]
        columns = [n for kind, n in edit.numbers if kind == "c"]
        self.same = dict.fromkeys(numbers, min(numbers)) if edit.word == "merge" else {}
        self.above = {}
        for n, node in self.nodes.items():
            self.above.setdefault(self.at(n), set()).update(self.at(above) for above in node["above"])
        if edit.word == "under":
            self.above.setdefault(numbers[0], set()).add(numbers[1])
        moved = dict.fromkeys(columns, numbers[0]) if edit.word == "move" else {}
        self.columns = {c: self.at(moved.get(c, n)) for n, node in self.nodes.items() for c in node["columns"]}
        self.rows = {r: self.at(n) for n, node in self.nodes.items() for r in node["rows"]}
        self.move_this(moved)

    def move_this(self, moved):
        """With a body that moves goes its `this`."""
        for c, n in moved.items():
            column = self.before["columns"][c]
            if column["kind"] == "body":
                label = column["member"] + ".this"
                self.rows.update({row["number"]: n for row in self.before["rows"] if row["label"] == label})

    def at(self, n):
        return self.same.get(n, n)

    def up(self, n):
        """A node and those above it."""
        found, waiting = set(), [self.at(n)]
        while waiting:
            at = waiting.pop()
            if at not in found:
                found.add(at)
                waiting += self.above.get(at, ())
        return found

    def offered(self, n):
        """The columns that a node would offer."""
        up = self.up(n)
        return [c for c, at in self.columns.items() if at in up]


class Names:
    """What has a name in the program, with its line."""

    def __init__(self, analysis):
        self.declared = analysis.declared

    def of_text(self, name):
        """A variable, parameter or field of this name, in words, or nothing."""
        for variable in self.declared.variables:
            if variable.label.rsplit(".", 1)[-1] == name and name not in ("this", "return"):
                return f"`{variable.label}` in line {variable.line} of the program has that name"
        if name in self.declared.classes:
            return f"the class {name} in line {self.declared.classes[name]} of the program stays for its static members"
        return None


def node_words(after, n):
    node = after.nodes.get(n)
    return f"n{n} ({node['name']})" if node else f"n{n}"


def row_words(after, r):
    row = after.before["rows"][r]
    return f"r{r} ({row['label']}" + (")" if "@" in row["label"] else f", line {row['line']})")


def column_words(after, c):
    column = after.before["columns"][c]
    return f"c{c} ({column['kind']} {column['member']}, line {column['line']})"


def reason(case, after, names):
    """Why an edit is refused, in words."""
    refusal = case.refusal
    if refusal["why"] == "unknown node":
        return unknown_node(case, after)
    if refusal["why"] == "unknown member":
        return unknown_member(after, refusal["column"])
    if refusal["why"] == "not empty":
        n = refusal["nodes"][0]
        node = after.nodes[n]
        there = [column_words(after, c) for c in node["columns"]] + [row_words(after, r) for r in node["rows"]]
        shown = ", ".join(there[:6]) + (" and more" if len(there) > 6 else "")
        return f"{node_words(after, n)} is not empty: {shown} stand there"
    if refusal["why"] == "nothing to undo":
        return "nothing is left to undo: no edit above it was made, or each that was made is taken back already"
    return f"breaks {refusal['obligation']}: {REASONS[refusal['obligation']](case, after, names)}"


def unknown_node(case, after):
    n = case.refusal["nodes"][0]
    greatest = max(after.nodes)
    if n > greatest:
        return f"there is no node n{n}: the greatest is n{greatest}"
    return f"there is no node n{n} here: it was merged into another or dropped before, or no row has all its columns"


def unknown_member(after, c):
    columns = after.before["columns"]
    if c >= len(columns):
        return f"there is no column c{c}: the greatest is c{len(columns) - 1}"
    if columns[c]["kind"] == "mark":
        return f"c{c} is the mark of the tested type {columns[c]['member']}, which has no name"
    return f"no row needs {column_words(after, c)}, so that it stands nowhere and is not written"


def order(case, after, _):
    n = case.refusal["nodes"][0]
    if case.edit.word == "merge":
        return f"{node_words(after, n)} lies between the nodes that would become one"
    return f"{node_words(after, n)} already stands below the other, so that the order would go in a circle"


def offers(case, after, _):
    r, c = case.refusal["row"], case.refusal["column"]
    return (
        f"{row_words(after, r)} at {node_words(after, case.refusal['nodes'][0])} needs {column_words(after, c)}, "
        f"which would stand at {node_words(after, after.columns[c])}, neither there nor above"
    )


def flows(case, after, _):
    low, high = case.refusal["nodes"][0], case.refusal["nodes"][-1]
    return (
        f"what {row_words(after, case.refusal['row'])} holds flows into a variable, or is compared with one, of the "
        f"type {node_words(after, high)}, and {node_words(after, low)} would stand neither there nor below"
    )


def other_bodies(after, n, c):
    """The other bodies of a method of the same name that a node would offer."""
    columns = after.before["columns"]
    bodies = [k for k in after.offered(n) if k != c and columns[k]["kind"] == "body"]
    return [column_words(after, k) for k in bodies if columns[k]["name"] == columns[c]["name"]]


def runs(case, after, _):
    n, r, c = case.refusal["nodes"][0], case.refusal["row"], case.refusal["column"]
    nearer = ", ".join(other_bodies(after, n, c))
    other = f"another body would be nearer or as near ({nearer})" if nearer else "it would no longer be offered there"
    return f"the object {row_words(after, r)} at {node_words(after, n)} runs {column_words(after, c)}, and {other}"


def calls(case, after, _):
    n, r, c = case.refusal["nodes"][0], case.refusal["row"], case.refusal["column"]
    nearer = ", ".join(other_bodies(after, n, c))
    other = f", or another body would stand between ({nearer})" if nearer else ""
    called = f"{row_words(after, r)} calls {column_words(after, c)} by super"
    return f"{called}, which would not stand strictly above {node_words(after, n)}{other}"


def bodies(case, after, _):
    n, c = case.refusal["nodes"][0], case.refusal["column"]
    two = " and ".join([*other_bodies_at(after, n, c), column_words(after, c)])
    return f"{node_words(after, n)} would have two bodies of one method: {two}"


def other_bodies_at(after, n, c):
    columns = after.before["columns"]
    there = [k for k, at in after.columns.items() if at == after.at(n) and k != c and columns[k]["kind"] == "body"]
    return [column_words(after, k) for k in there if columns[k]["name"] == columns[c]["name"]]


def tests(case, after, _):
    first, second = case.refusal["nodes"][0], case.refusal["nodes"][-1]
    return (
        f"a cast, an instanceof or a store into an array has another outcome: {row_words(after, case.refusal['row'])} "
        f"is at {node_words(after, first)}, and the tested type is {node_words(after, second)}"
    )


def naming(case, after, names):
    n, c, edit = case.refusal["nodes"][0], case.refusal["column"], case.edit
    name = edit.name if edit.word in ("type", "member") else None
    if name is not None and not re.fullmatch(r"[^\W\d]\w*", name.replace("$", "_")):
        return f"`{name}` is no identifier"
    if name in KEYWORDS:
        return f"`{name}` is a keyword"
    if name in KNOWN:
        return f"`{name}` is known without a declaration"
    if edit.word == "type":
        taken = [node for node in after.nodes.values() if node["name"] == name]
        if taken:
            return f"the type {node_words(after, taken[0]['number'])} has the name already"
        return names.of_text(name) or f"the name {name} is taken"
    return same_members(after, n, c, name)


def same_members(after, n, c, name):
    """Which other member of the name a type would offer."""
    columns = after.before["columns"]
    wanted = name or (columns[c]["name"] if c is not None else None)
    renamed = [k for kind, k in after.edit.numbers if kind == "c"] if name else []
    kind = "field" if c is not None and columns[c]["kind"] == "field" else "method"
    for node in after.nodes.values():
        if kind == "field" and node["name"] == wanted:
            return f"the type {node_words(after, node['number'])} has the name already"
    others = [k for k in after.offered(n) if k != c and k not in renamed and columns[k]["name"] == wanted]
    others = [k for k in others if (columns[k]["kind"] == "field") == (kind == "field")]
    shown = ", ".join(column_words(after, k) for k in others)
    of_column = f"{column_words(after, c)}" if c is not None else "a member"
    more = f" besides {shown}" if shown else ""
    return f"{node_words(after, n)} would offer two {kind}s named {wanted}: {of_column}{more}"


REASONS = {"B1": order, "B2": offers, "B3": flows, "B4": runs, "B5": calls, "B6": bodies, "B7": tests, "B8": naming}
