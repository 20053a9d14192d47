"""The texts of the workbench: the new Java beside the old, and runs of both."""
import difflib

from kaba_tools import FILE_LIMIT
from workbench_runs import STOPPED, Fault, has_tool
from workbench_session import Superseded

RUN_SECONDS, TOOL_SECONDS = 60, 300
MOST_SHOWN = 200000
WRITTEN, PATCHED = "written", "patched"


def lines_of(text):
    lines = text.split("\n")
    if lines and lines[-1] == "":
        lines.pop()
    return [line.rstrip("\r") for line in lines]


def beside(old, new):
    """The lines of two texts beside each other: kind, number and text on the left, number and text on the right."""
    left, right, rows = lines_of(old), lines_of(new), []
    for tag, a, b, c, d in difflib.SequenceMatcher(None, left, right).get_opcodes():
        for k in range(max(b - a, d - c)):
            i, j = a + k, c + k
            one = [i + 1, left[i]] if i < b else [0, ""]
            two = [j + 1, right[j]] if j < d else [0, ""]
            kind = "same" if tag == "equal" else "changed" if i < b and j < d else "gone" if i < b else "new"
            rows.append([kind, *one, *two])
    return rows


def tree(session):
    """Whether a tree is found, its steps, or the conflict."""
    made = session.regenerated()
    return {"found": made["found"], "steps": made["steps"], "conflict": made["conflict"],
        "revision": session.script.revision()}


def patched(session):
    """The result as a change of the old text, as tools/patch writes it."""
    if not has_tool("patch"):
        raise Fault("tools/patch is not there")
    text = session.script.text()
    return session.remembered(("patch", text), lambda: patch_of(session, text))


def patch_of(session, text):
    script, target = session.temporary(".edits"), session.temporary(".java")
    script.write_text(text, encoding="utf-8")
    try:
        words = ["-o", target, session.program.copy, script]
        answer = session.runner.tool("patch", *words, purpose="patch", seconds=TOOL_SECONDS)
        if answer.status == STOPPED:
            raise Superseded
        if not target.is_file():
            raise Fault(answer.error or "tools/patch wrote nothing")
        said = [line[7:] for line in answer.error.split("\n") if line.startswith("patch: ")]
        diff = answer.output.replace(str(session.program.copy).lstrip("/").encode(), session.program.copy.name.encode())
        diff = diff.replace(str(session.program.copy).encode(), session.program.copy.name.encode())
        return {"text": target.read_text(encoding="utf-8", errors="replace"), "diff": diff, "said": "; ".join(said)}
    finally:
        script.unlink(missing_ok=True)
        target.unlink(missing_ok=True)


def java(session, form):
    """The new text in one of its forms."""
    made = session.regenerated()
    if not made["found"]:
        raise Fault("no tree is found, so no program is written: the conflict stands at the tree")
    return patched(session)["text"] if form == PATCHED else made["text"]


def java_beside(session, form):
    text = java(session, form)
    old = session.program.data.decode(errors="replace")
    rows = beside(old, text)
    changed = sum(1 for row in rows if row[0] != "same")
    said = patched(session)["said"] if form == PATCHED else ""
    return {"rows": rows, "changed": changed, "form": form, "said": said}


def shown_run(answer):
    output = answer.output.decode(errors="replace")
    return {
        "status": answer.status,
        "output": output[:MOST_SHOWN] + ("\n.." if len(output) > MOST_SHOWN else ""),
        "error": answer.error if answer.status != STOPPED else "stopped",
    }


def runs(session, given, steps, form):
    """Both programs run on the same words, at most so many steps."""
    if not isinstance(steps, int) or not 0 <= steps <= 1000000000:
        raise Fault("steps are a number from 0 to 1000000000")
    if not all(isinstance(word, str) and "\0" not in word for word in given):
        raise Fault("a word has no character of code 0")
    text = java(session, form).encode()
    if len(text) > FILE_LIMIT:
        raise Fault(f"the new text has more than {FILE_LIMIT} bytes, which the program does not read")
    file = session.temporary(".java")
    file.write_bytes(text)
    try:
        old = session.runner.kaba("run", session.program.copy, steps, *given, seconds=RUN_SECONDS)
        new = session.runner.kaba("run", file, steps, *given, seconds=RUN_SECONDS)
    finally:
        file.unlink(missing_ok=True)
    return {"old": shown_run(old), "new": shown_run(new), "same": old == new}
