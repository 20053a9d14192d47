"""Edits that may be made in place of one that is refused; whether they are made is asked of the program."""

MOST_TRIED = 12


def text(word, *numbers):
    return " ".join([word, *numbers])


def nodes_of(edit):
    return [f"n{n}" for kind, n in edit.numbers if kind == "n"]


def columns_of(edit):
    return [f"c{n}" for kind, n in edit.numbers if kind == "c"]


def free_names(name, taken):
    """Names that come from one and that nothing has."""
    for tail in ["_", *map(str, range(2, 9))]:
        if name + tail not in taken:
            yield name + tail


def mends(case, after, names):
    """Lists of edits to try in place of the refused one, the nearest to it first."""
    found = []
    for texts in MENDS.get(case.refusal["obligation"], lambda *_: ())(case, after, names):
        if texts not in found:
            found.append(texts)
    return found[:MOST_TRIED]


def of_order(case, after, _):
    nodes = nodes_of(case.edit)
    if case.edit.word == "merge":
        yield [text("merge", *nodes, f"n{case.refusal['nodes'][0]}")]
        low, high = after.edit.numbers[0][1], after.edit.numbers[-1][1]
        between = [n for n in after.nodes if is_between(after, n, low, high)]
        yield [text("merge", *nodes, *(f"n{n}" for n in between if f"n{n}" not in nodes))]
    else:
        yield [text("merge", *nodes)]


def is_between(after, n, first, second):
    """Whether a node stands between two others, in the hierarchy before the edit."""

    def up(n):
        seen, waiting = set(), [n]
        while waiting:
            at = waiting.pop()
            if at not in seen:
                seen.add(at)
                waiting += after.nodes[at]["above"]
        return seen

    return any(n in up(low) and high in up(n) for low, high in ((first, second), (second, first)))


def of_offers(case, after, _):
    """The member at a node above all rows that need it: in place of the edit, or before it where it moves another."""
    c = case.refusal["column"]
    ups = [after.up(after.rows[row["number"]]) for row in after.before["rows"] if c in row["columns"]]
    common = set.intersection(*ups) if ups else set()
    is_own = f"c{c}" in columns_of(case.edit)
    for n in sorted(common, key=lambda n: -len(after.up(n))):
        if n != after.before["columns"][c]["node"]:
            yield [text("move", f"c{c}", f"n{n}")] + ([] if is_own else [case.edit.text])


def of_flows(case, after, _):
    low, high = case.refusal["nodes"][0], case.refusal["nodes"][-1]
    first = case.edit.text
    yield [text("under", f"n{low}", f"n{high}"), first]
    yield [text("merge", f"n{low}", f"n{high}"), first]
    if case.edit.word == "move":
        yield from with_declaration(case, after)


def with_declaration(case, after):
    """A body goes nowhere without the declaration of its method."""
    columns = after.before["columns"]
    c = case.edit.numbers[0][1]
    node = nodes_of(case.edit)[0]
    for k, column in enumerate(columns):
        is_declared = column["kind"] == "declaration" and column["node"] is not None
        if k != c and is_declared and column["name"] == columns[c]["name"]:
            yield [text("move", f"c{k}", node), case.edit.text]


def of_bodies(case, after, _):
    nodes = nodes_of(case.edit)
    if case.edit.word == "merge":
        for low in nodes:
            for high in nodes:
                if low != high:
                    yield [text("under", low, high)]


def of_names(case, after, names):
    """The same edit with another name, or the member or type that has the name under another one before it."""
    edit = case.edit
    taken = {node["name"] for node in after.nodes.values()} | {column["name"] for column in after.before["columns"]}
    if edit.word in ("type", "member"):
        number = (nodes_of(edit) if edit.word == "type" else columns_of(edit))[0]
        for name in free_names(edit.name, taken):
            yield [text(edit.word, number, name)]
        return
    c = case.refusal["column"]
    if c is not None:
        for name in free_names(after.before["columns"][c]["name"], taken):
            yield [text("member", f"c{c}", name), edit.text]


MENDS = {
    "B1": of_order,
    "B2": of_offers,
    "B3": of_flows,
    "B4": of_bodies,
    "B5": of_bodies,
    "B6": of_bodies,
    "B7": of_bodies,
    "B8": of_names,
}
