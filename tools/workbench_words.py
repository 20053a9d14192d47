"""Refused edits in words, and what could mend each: every mend is tried by the program before it is offered."""
import re

from kaba_scripts import edit_of

KEYWORDS = set(
    "abstract assert boolean break byte case catch char class const continue default do double else enum extends final"
    " finally float for goto if implements import instanceof int interface long native new package private protected"
    " public return short static strictfp super switch synchronized this throw throws transient try void volatile while"
    " true false null _".split()
)
IDENTIFIER = re.compile(r"[^\W\d][\w$]*|\$[\w$]*")
MOST_MENDS = 8


class Names:
    """What the numbers of a hierarchy are called."""

    def __init__(self, program, nodes):
        self.program, self.nodes = program, {node["number"]: node for node in nodes}
        self.columns = [program.column(c) for c in range(len(program.analysis.lattice.columns))]

    def node(self, n):
        return f"{short(self.nodes[n]['name'])} (n{n})" if n in self.nodes else f"n{n}"

    def row(self, r):
        return short(self.program.given.said(self.program.analysis.lattice.rows[r]))

    def column(self, c):
        column = self.columns[c]
        holder, name = short(column["holder"]), with_brackets(short(column["name"]))
        said = {
            "field": f"the field {holder}.{short(column['name'])}",
            "declaration": f"the method {holder}.{name}",
            "body": f"the body of {holder}.{name}",
        }
        return said.get(column["kind"], f"the mark of the tested type {holder}")

    def above(self, n):
        """The nodes at or above a node."""
        seen, left = set(), [n]
        while left:
            k = left.pop()
            if k in self.nodes and k not in seen:
                seen.add(k)
                left += self.nodes[k]["above"]
        return seen

    def between(self, numbers):
        """These nodes and those that lie between any two of them, which makes a merge of them lawful for the order."""
        ups = {n: self.above(n) for n in self.nodes}
        found = set(numbers)
        upper = set().union(*(ups[n] for n in found))
        return sorted(found | {k for k in upper if any(n in ups[k] for n in found)})


def with_brackets(name):
    """A method's name with its brackets; that of an overload in everyday Java has its types in them."""
    return name if name.endswith(")") else f"{name}()"


def short(text, most=60):
    return text if len(text) <= most else text[: most - 1] + "\u2026"


def told(refused, edit, names):
    """A refused edit in words: what it would do that it must not."""
    if refused["why"] == "unknown node":
        return f"There is no type n{refused['nodes'][0]} any more: it became one with another, or it was dropped."
    if refused["why"] == "unknown member":
        if names.columns[refused["column"]]["kind"] == "mark":
            return f"{names.column(refused['column'])} has no name.".capitalize()
        return f"Nothing needs {names.column(refused['column'])}, so it stands nowhere."
    if refused["why"] == "not empty":
        node = names.node(refused["nodes"][0])
        return f"{node} is not empty: only a type without members and variables can be dropped."
    if refused["why"] == "nothing to undo":
        return "Nothing is left to undo: each edit above it was refused, or is taken back already."
    return OF_RULE[refused["obligation"]](refused, edit, names)


def told_b1(refused, edit, names):
    middle = names.node(refused["nodes"][0])
    if edit.word == "under":
        return f"{middle} stands below the type that would be put under it."
    return f"{middle} lies between the types that would become one: below one of them and above another."


def told_b2(refused, edit, names):
    row, column = names.row(refused["row"]), names.column(refused["column"])
    node = names.node(refused["nodes"][0])
    return f"{row} needs {column}, which would stand neither at its type {node} nor above."


def told_b3(refused, edit, names):
    lower, upper = (names.node(n) for n in refused["nodes"][:2])
    row = names.row(refused["row"])
    return f"The values of {row} go where the type {upper} is wanted, so its type {lower} has to stay at or below it."


def told_b4(refused, edit, names):
    row, column, node = names.row(refused["row"]), names.column(refused["column"]), names.node(refused["nodes"][0])
    return (
        f"The object of {row}, of type {node}, runs {column}. "
        "After the edit it would not have that body, or another body would be nearer."
    )


def told_b5(refused, edit, names):
    row, column = names.row(refused["row"]), names.column(refused["column"])
    return (
        f"{row} calls {column} by super. "
        "After the edit that call would not reach it, or would reach another body first."
    )


def told_b6(refused, edit, names):
    column = names.columns[refused["column"]]
    node, name = names.node(refused["nodes"][0]), with_brackets(short(column["name"]))
    return f"{node} would have two bodies of one method {name}; a type has one."


def told_b7(refused, edit, names):
    object_node, target = (names.node(n) for n in refused["nodes"][:2])
    return (
        "A cast, an instanceof or a store into an array would end otherwise for the object of "
        f"{names.row(refused['row'])}: its type {object_node} and the type that is asked, {target}, "
        "must stay apart, or below one another, as they are."
    )


def told_b8(refused, edit, names):
    node, column = refused["nodes"][0], refused["column"]
    name = edit.name
    if name is not None and (not IDENTIFIER.fullmatch(name) or name in KEYWORDS):
        why = "a word of the language" if name in KEYWORDS else "no name that Java can write"
        return f"'{short(name)}' is {why}."
    if column is None and name is not None:
        return (
            f"'{short(name)}' is taken: another type, a class with static members, "
            "or a variable, parameter or field of the text is called so."
        )
    if column is None:
        return f"The name of {names.node(node)} would be taken by another type or a variable."
    member = names.columns[column]
    return (
        f"{names.node(node)} would have two members called {short(name or member['name'])}, "
        "or one with the name of a type: "
        f"{names.column(column)} is one of them."
    )


OF_RULE = {"B1": told_b1, "B2": told_b2, "B3": told_b3, "B4": told_b4, "B5": told_b5, "B6": told_b6, "B7": told_b7,
    "B8": told_b8}


def merge_of(numbers):
    return "merge " + " ".join(f"n{n}" for n in sorted(set(numbers)))


def mends(refused, edit, names):
    """What could be done instead of a refused edit: words and edits, the likeliest first."""
    found = []
    nodes = [n for kind, n in edit.numbers if kind == "n" and n in names.nodes]
    makers = {"merge": mends_of_merge, "under": mends_of_under, "move": mends_of_move, "drop": mends_of_drop}
    made = makers.get(edit.word)
    if refused["obligation"] == "B8":
        found += mends_of_names(refused, edit, names)
    if refused["obligation"] == "B3" and all(n in names.nodes for n in refused["nodes"]):
        lower, upper = refused["nodes"][:2]
        found.append((f"Put {names.node(lower)} under {names.node(upper)} first",
            [f"under n{lower} n{upper}", edit.text]))
    if made and nodes:
        found += made(refused, edit, names, nodes)
    seen, kept = set(), []
    for title, edits in found:
        if tuple(edits) not in seen and edits != [edit.text]:
            seen.add(tuple(edits))
            kept.append({"title": title, "edits": edits})
    return kept[:MOST_MENDS]


def mends_of_merge(refused, edit, names, nodes):
    found = []
    closed = names.between(nodes)
    if closed != sorted(set(nodes)):
        more = [n for n in closed if n not in nodes]
        said = ", ".join(names.node(n) for n in more[:4]) + (f" and {len(more) - 4} more" if len(more) > 4 else "")
        found.append((f"Merge what lies between too: {said}", [merge_of(closed)]))
    if len(nodes) == 2:
        a, b = nodes
        for x, y in ((x, y) for x, y in ((b, a), (a, b)) if y not in names.above(x)):
            found.append((f"Put {names.node(x)} under {names.node(y)} instead", [f"under n{x} n{y}"]))
    elif len(nodes) > 2:
        for n in [*(n for n in refused["nodes"] if n in nodes), *reversed(nodes)]:
            rest = [k for k in nodes if k != n]
            found.append((f"Merge without {names.node(n)}", [merge_of(rest)]))
    return found


def mends_of_under(refused, edit, names, nodes):
    lower, upper = nodes[0], nodes[-1]
    found = [(f"Merge {names.node(lower)} and {names.node(upper)} instead", [merge_of(names.between([lower, upper]))])]
    for n in names.nodes[upper]["above"]:
        found.append((f"Put it under {names.node(n)} instead", [f"under n{lower} n{n}"]))
    return found


def mends_of_move(refused, edit, names, nodes):
    column, wanted = edit.numbers[0][1], nodes[0]
    now = next((n for n, node in names.nodes.items() if column in node["columns"]), wanted)
    found = []
    if refused["obligation"] == "B2" and refused["nodes"][0] in names.nodes:
        n = refused["nodes"][0]
        found.append((f"Put {names.node(n)} under {names.node(wanted)} first", [f"under n{n} n{wanted}", edit.text]))
    if wanted != now:
        found.append((f"Merge {names.node(now)} and {names.node(wanted)} instead",
            [merge_of(names.between([now, wanted]))]))
    near = [*names.nodes[wanted]["above"], *names.nodes[now]["above"], *names.nodes[wanted]["below"],
        *names.nodes[now]["below"]]
    found += [(f"Move it to {names.node(n)} instead", [f"move c{column} n{n}"]) for n in near if n != now]
    return found


def mends_of_drop(refused, edit, names, nodes):
    return [(f"Merge it with {names.node(n)} instead", [merge_of([nodes[0], n])])
        for n in names.nodes[nodes[0]]["above"]]


def mends_of_names(refused, edit, names):
    if edit.name is not None:
        base = re.sub(r"[^\w$]", "", edit.name) or "Type"
        base = base if not base[0].isdigit() else "_" + base
        front = base[0].upper() + base[1:] if edit.word == "type" else base
        guesses = (front, front + "_", front + "2", front + "Type")
        words = [name for name in guesses if name != edit.name and name not in KEYWORDS]
        where = edit.text.rpartition(" ")[0]
        return [(f"Call it {short(name)}", [f"{where} {name}"]) for name in words]
    if refused["column"] is None:
        return []
    column = names.columns[refused["column"]]
    name = re.sub(r"\W", "", f"{column['name']}Of{column['holder']}")
    return [(f"Call {names.column(refused['column'])} {short(name)} first",
        [f"member c{refused['column']} {name}", edit.text])]


def refusal(refused, edits, names):
    """What the page shows of a refused edit."""
    edit = edit_of(edits[refused["index"]], 1)
    where = {"nodes": refused["nodes"], "row": refused["row"], "column": refused["column"]}
    rule = refused["obligation"] or refused["why"]
    return {"edit": edit.text, "rule": rule, "text": told(refused, edit, names), "where": where,
        "line": refused["line"]}
