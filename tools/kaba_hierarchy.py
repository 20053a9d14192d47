"""The class hierarchy that `kaba edit` prints, the refused edits, and the steps to the tree, read into plain values.

`hierarchy(FILE)` asks the program and gives what `tools/hierarchy --json` prints, as `tools/hierarchy --help`
describes it; `nodes_in`, `refusals_in` and `tree_in` read a text of the program that was had otherwise.
"""
import re
import tempfile
from pathlib import Path

from kaba_analysis import analyse
from kaba_scripts import edits_in, fault_in
from kaba_tools import bytes_of, fail, fail_as, kaba

MOST_CONCEPTS, MOST_EDITS = 16384, 4096
MADE, REFUSED, BAD_SCRIPT, NO_TREE = 0, 4, 69, 5

NODE = re.compile(
    r"n(\d+) (class|interface) (\S+) origin (\S+) above:((?: n\d+)+| -)"
    r" columns:((?: c\d+(?::\S+)?)+| -) rows:((?: r\d+)+| -)"
)
BROKEN = r"breaks (B\d) nodes ((?:n\d+ ?)*|-) ?row (r\d+|-) column (c\d+|-)"
UNKNOWN = re.compile(r"edit (\d+): (unknown node|unknown member|not empty) (n|c)(\d+)")
BREAKS = re.compile(rf"edit (\d+): {BROKEN}")
NOTHING = re.compile(r"edit (\d+): (nothing to undo)")
STEP = re.compile(r"tree n(\d+) n(\d+) n(\d+): (.+)")
NO_TREE_LINE = re.compile(rf"kaba: no tree: n(\d+) n(\d+) n(\d+) {BROKEN}")


def numbers_in(text):
    """The numbers of a list such as ` n1 n4`, none of ` -`."""
    return [int(number) for number in re.findall(r"\d+", text)]


def number_or_none(word):
    return None if word == "-" else int(word[1:])


def node_in(line):
    """A node's line as values, or one that has no such form as nothing."""
    found = NODE.fullmatch(line)
    if not found:
        return None
    number, kind, name, origin, above, columns, rows = found.groups()
    names = {int(c): name for c, name in re.findall(r"c(\d+):(\S+)", columns)}
    return {
        "number": int(number),
        "name": name,
        "kind": kind,
        "is_class_node": kind == "class",
        "origin": None if origin == "-" else origin,
        "above": numbers_in(above),
        "below": [],
        "columns": [int(c) for c in re.findall(r" c(\d+)", columns)],
        "names": names,
        "rows": numbers_in(rows),
        "is_empty": columns == " -" and rows == " -",
    }


def nodes_in(text):
    """The nodes of a hierarchy as `kaba edit` prints it; ValueError where the text is none."""
    head, *lines = text.splitlines() or [""]
    nodes = [node_in(line) for line in lines]
    if None in nodes or head != f"nodes {len(nodes)}":
        raise ValueError("this is no hierarchy")
    by_number = {node["number"]: node for node in nodes}
    for node in nodes:
        for above in node["above"]:
            by_number[above]["below"].append(node["number"])
    return nodes


def broken_in(rule, nodes, row, column):
    """The obligation that an edit would break, and its first instance."""
    place = {"nodes": numbers_in(nodes), "row": number_or_none(row), "column": number_or_none(column)}
    return {"obligation": rule, **place}


def refusals_in(text):
    """The edits that are refused, of the lines on standard error."""
    refused = []
    for line in text.splitlines():
        found = BREAKS.fullmatch(line)
        if found:
            refused.append({"line": int(found[1]), "why": "breaks", **broken_in(*found.groups()[1:])})
            continue
        found = UNKNOWN.fullmatch(line)
        if found:
            nodes, column = ([int(found[4])], None) if found[3] == "n" else ([], int(found[4]))
            place = {"obligation": None, "nodes": nodes, "row": None, "column": column}
            refused.append({"line": int(found[1]), "why": found[2], **place})
            continue
        found = NOTHING.fullmatch(line)
        if found:
            place = {"obligation": None, "nodes": [], "row": None, "column": None}
            refused.append({"line": int(found[1]), "why": found[2], **place})
    return refused


def tree_in(text):
    """The steps to the tree that `kaba regen` tells on standard error, and the conflict where they end at one."""
    steps, conflict = [], None
    for line in text.splitlines():
        step, end = STEP.fullmatch(line), NO_TREE_LINE.fullmatch(line)
        if step:
            steps.append({"conflict": [int(n) for n in step.groups()[:3]], "edit": step[4]})
        elif end:
            conflict = {"between": [int(n) for n in end.groups()[:3]], **broken_in(*end.groups()[3:])}
    return {"steps": steps, "conflict": conflict}


def end_with(status, error, file, script_name, script):
    """Ends the tool with what the program says, and for a bad script with why its line is no edit."""
    found = re.fullmatch(r"kaba: bad script: line (\d+)", error)
    if found:
        number = int(found[1])
        line = script.split(b"\n")[number - 1]
        fail(f"{script_name}:{number}: {fault_in(line)}", status)
    fail_as(status, error, file)


def asked(command, file, script_name, script, most):
    """What the program answers to `edit` or `regen` of a script's bytes."""
    with tempfile.TemporaryDirectory() as folder:
        edits = Path(folder, "edits")
        edits.write_bytes(script)
        status, output, error = kaba(command, "-c", str(most), file, str(edits))
    if status not in (MADE, REFUSED) + ((NO_TREE,) if command == "regen" else ()):
        end_with(status, error, file, script_name, script)
    return status, output.decode(), error


def with_steps(script, steps):
    """The script and behind it the steps to the tree, as one script."""
    front = script if not script or script.endswith(b"\n") else script + b"\n"
    return front + "".join(step["edit"] + "\n" for step in steps).encode()


def columns_of(analysis, nodes):
    """All columns in words, with the node and the name of each."""
    node_of = {c: node["number"] for node in nodes for c in node["columns"]}
    names = {c: name for node in nodes for c, name in node["names"].items()}
    found = []
    for c, label in enumerate(analysis.lattice.columns):
        column = {"number": c, "label": label, "kind": analysis.kind(c), "member": analysis.member(c)}
        found.append({**column, "name": names.get(c), "line": analysis.column_line(c), "node": node_of.get(c)})
    return found


def rows_of(analysis, nodes):
    """All rows in words, with the node of each and the columns that it needs."""
    node_of = {r: node["number"] for node in nodes for r in node["rows"]}
    found = []
    for r, label in enumerate(analysis.lattice.rows):
        row = {"number": r, "label": label, "line": analysis.row_lines[r]}
        found.append({**row, "node": node_of.get(r), "columns": sorted(analysis.needs[r])})
    return found


def with_words(analysis, nodes):
    """Gives each node its members and variables in words, and gives all columns and rows."""
    columns, rows = columns_of(analysis, nodes), rows_of(analysis, nodes)
    for node in nodes:
        del node["names"]
        node["members"] = [columns[c] for c in node["columns"]]
        node["variables"] = [{key: rows[r][key] for key in ("number", "label", "line")} for r in node["rows"]]
    return columns, rows


def hierarchy(file, script_name=None, most=MOST_CONCEPTS, tree=False, script=None):
    """What `tools/hierarchy --json` prints; `script` is the script's bytes where it stands in no file."""
    if script is None:
        script = bytes_of(script_name) if script_name else b""
    analysis = analyse(file, most)
    status, text, error = asked("edit", file, script_name, script, most)
    nodes = nodes_in(text)
    columns, rows = with_words(analysis, nodes)
    edits = edits_in(script)
    refused = [{**refusal, "edit": edits[refusal["line"]].text} for refusal in refusals_in(error)]
    found = {"file": file, "script": script_name, "status": status, "nodes": nodes}
    found.update(columns=columns, rows=rows, refused=refused)
    if tree:
        found["status"], _, error = asked("regen", file, script_name, script, most)
        found["tree"] = {**tree_in(error), "nodes": None}
        longer = with_steps(script, found["tree"]["steps"])
        if len(edits_in(longer)) <= MOST_EDITS:
            found["tree"]["nodes"] = nodes_in(asked("edit", file, script_name, longer, most)[1])
            with_words(analysis, found["tree"]["nodes"])
    return found
