"""Plans: what tools/propose writes, the edits that tools/plan makes of one, and the plan of what is shown."""
import re

from workbench_runs import Fault, has_tool
from workbench_words import with_brackets

TOOL_SECONDS = 300


def edits_in_order(text):
    """The edits of a script's text."""
    return [line for line in text.split("\n") if line and not line.startswith("#")]


def edits_of_plan(session, plan):
    """The edits that tools/plan makes of a plan, and what it says of those that are refused."""
    if not has_tool("plan"):
        raise Fault("tools/plan is not there")
    file = session.temporary(".plan")
    file.write_bytes(session.program.given.inner_plan(plan.encode(errors="replace")))
    try:
        answer = session.runner.tool("plan", session.program.copy, file, seconds=TOOL_SECONDS)
    finally:
        file.unlink(missing_ok=True)
    if answer.status:
        said = session.program.given.said(answer.error)
        raise Fault(re.sub(re.escape(str(file)), "plan", said) or "tools/plan made no script")
    return edits_in_order(answer.output.decode(errors="replace"))


def proposal(session, classes):
    """The plan that tools/propose writes."""
    if not has_tool("propose"):
        raise Fault("tools/propose is not there")
    key = ("propose", *classes)
    return session.remembered(key, lambda: proposal_of(session, classes))


def proposal_of(session, classes):
    given = session.program.given
    own = classes or (given.shown_classes(session.program.analysis.declared.classes) if given.is_everyday else ())
    answer = session.runner.tool("propose", session.program.copy, *own, seconds=TOOL_SECONDS)
    if answer.status:
        raise Fault(answer.error or "tools/propose has no proposal")
    return given.outer_plan(answer.output.decode(errors="replace").replace(str(session.program.copy), given.name))


def things_of(program, node):
    """What stands at a type, in the words of a plan."""
    members = {}
    for c in node["columns"]:
        column = program.column(c)
        members.setdefault((column["holder"], column["name"]), []).append(column["kind"])
    for (holder, name), kinds in members.items():
        if kinds == ["mark"]:
            yield f"test {holder}"
        elif kinds == ["field"]:
            yield f"{holder}.{name}"
        elif "field" in kinds or len(kinds) == 2:
            method = with_brackets(name)
            yield from (f"{holder}.{name if kind == 'field' else method}" for kind in kinds if kind != "body")
        else:
            yield f"{kinds[0]} {holder}.{name}"
    for r in node["rows"]:
        row = program.row(r)
        yield row["label"] if row["kind"] in ("new", "cast", "instanceof") else f"variable {row['label']}"


def plan_text(program, nodes):
    """A plan with a line for each type at which something stands."""
    lines = []
    for node in nodes:
        things = list(dict.fromkeys(things_of(program, node)))
        if things:
            lines.append(f"class {node['name']}: {things[0]}")
            lines += [f"  {thing}" for thing in things[1:]]
    if not any(node["is_empty"] for node in nodes):
        lines.append("drop empty")
    return "".join(line + "\n" for line in lines)


def types_in(nodes):
    """The types of a hierarchy by what stands there, with their names and what is right above."""
    names = {node["number"]: node["name"] for node in nodes}
    return {(node["name"], tuple(node["columns"]), tuple(node["rows"]), tuple(sorted(names[n] for n in node["above"])))
        for node in nodes}


def plan_of(session):
    """A plan of the hierarchy that is shown, and whether tools/plan makes the same of it."""
    nodes = session.asked(session.script.text())["nodes"]
    text = plan_text(session.program, nodes)
    key = ("plan", text)
    return {"plan": text, "said": session.remembered(key, lambda: compared(session, text, nodes))}


def compared(session, text, nodes):
    try:
        edits = edits_of_plan(session, text)
    except Fault as fault:
        return f"tools/plan does not take this plan, so only the script makes what is shown: {fault}"
    made = session.asked("".join(line + "\n" for line in edits))["nodes"]
    if types_in(made) == types_in(nodes):
        return "tools/plan makes exactly the types that are shown of this plan."
    return (
        "Of this plan tools/plan makes other types than those that are shown: "
        "a plan has no words for each edit. The script has."
    )
