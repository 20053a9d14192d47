"""The report as JSON."""
import json

from report_shared import containers, shared_slots


def class_json(analysis, name):
    """A class: its members with what needs them, its creations with what they leave unused, and what a split parts."""
    rows = analysis.rows_of
    members = [
        {
            "column": c,
            "label": analysis.lattice.columns[c],
            "kind": analysis.kind(c),
            "line": analysis.column_line(c),
            "needed_by": rows[c],
            "only_its_own_body": analysis.only_itself(c),
        }
        for c in analysis.columns_of(name)
    ]
    creations = [
        {**row_json(analysis, r), "unused": unused(analysis, name, r)}
        for r in analysis.creations(name)
    ]
    common, parts = analysis.split(name)
    split = {"parts": parts, "common": common} if len(parts) > 1 else None
    declared = analysis.declared
    place = {"name": name, "line": declared.classes[name], "extends": declared.parents.get(name)}
    return {**place, "members": members, "creations": creations, "split": split}


def row_json(analysis, r):
    return {"row": r, "label": analysis.lattice.rows[r], "line": analysis.row_lines[r]}


def unused(analysis, name, r):
    return [c for c in analysis.inherited(name) if c not in analysis.needs[r]]


def report_json(analysis, names, dead, lone):
    """The whole report as a text."""
    lattice = analysis.lattice
    columns = [
        {"label": label, "kind": analysis.kind(c), "line": analysis.column_line(c)}
        for c, label in enumerate(lattice.columns)
    ]
    rows = [{"label": label, "line": analysis.row_lines[r]} for r, label in enumerate(lattice.rows)]
    slots = [
        [
            {"member": head.label, "parameters": head.parameters, "result": head.result, "line": head.line}
            for head in heads
        ]
        for heads in shared_slots(analysis.declared)
    ]
    held = [{"field": it[0], "type": it[1], "line": it[2], "creations": it[3]} for it in containers(analysis)]
    found = {"file": None, "concepts": len(lattice.above), "columns": columns, "rows": rows}
    found["classes"] = [class_json(analysis, name) for name in names]
    found.update(needed_by_nothing=dead, needed_by_own_body_alone=lone, shared_slots=slots, shared_containers=held)
    found["file"] = analysis.given.name
    return json.dumps(in_own_words(analysis.given, found), indent=1)


def in_own_words(given, value):
    """A value of the report with the names, the lines and the files of what was given."""
    if isinstance(value, str):
        return given.said(value)
    if isinstance(value, list):
        return [in_own_words(given, it) for it in value]
    if isinstance(value, dict):
        found = {key: it if key == "file" else in_own_words(given, it) for key, it in value.items()}
        return {**found, **given.place_json(value["line"])} if "line" in value else found
    return value
