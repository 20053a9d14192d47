"""What the workbench keeps of one program: its script, the hierarchy after it, and what was undone."""
import threading
from collections import OrderedDict
from concurrent.futures import Future
from pathlib import Path

import workbench_script as scripts
import workbench_words as words
from kaba_hierarchy import nodes_in, refusals_in, tree_in
from kaba_names import warning_of_edit
from kaba_scripts import edit_of, fault_of
from workbench_program import Program
from workbench_runs import STOPPED, Fault

MADE, REFUSED, NO_TREE = 0, 4, 5
KEPT_ANSWERS = 64
MOST_TRIES = 8


class Stale(Exception):
    """The page spoke of another state of the script."""


class Superseded(Exception):
    """The run was stopped, since one for a later state of the script began."""


class Session:
    """One program and one script. Each change is made by one caller at a time."""

    def __init__(self, given, script, folder, runner, most):
        self.folder, self.runner, self.most = Path(folder), runner, most
        self.program = Program(given, folder, most)
        self.script = scripts.Script(script)
        self.lock, self.writing = threading.RLock(), threading.Lock()
        self.answers, self.written = OrderedDict(), 0
        self.script.read()
        self.start = self.asked("")["nodes"]
        self.asked(self.script.text())

    def temporary(self, suffix):
        """The path of a new file in the session's folder."""
        with self.writing:
            self.written += 1
            return self.folder / f"{self.written}{suffix}"

    def kaba_on(self, command, text, **how):
        """What the program answers to `edit` or `regen` of a script's text."""
        file = self.temporary(".edits")
        file.write_text(text, encoding="utf-8")
        try:
            answer = self.runner.kaba(command, "-c", self.most, self.program.copy, file, **how)
        finally:
            file.unlink(missing_ok=True)
        if answer.status == STOPPED:
            raise Superseded if "purpose" in how else Fault("the run was stopped")
        if answer.status not in (MADE, REFUSED, NO_TREE):
            raise Fault(answer.error or f"the program ends with {answer.status}: memory is short")
        return answer

    def remembered(self, key, make):
        """An answer that was had before, one that another caller is getting, or a new one."""
        with self.writing:
            found = self.answers.get(key)
            mine = found is None
            if mine:
                found = self.answers[key] = Future()
            self.answers.move_to_end(key)
            while len(self.answers) > KEPT_ANSWERS:
                self.answers.popitem(last=False)
        if mine:
            try:
                found.set_result(make())
            except BaseException as fault:
                with self.writing:
                    if self.answers.get(key) is found:
                        del self.answers[key]
                found.set_exception(fault)
        return found.result()

    def asked(self, text):
        """The hierarchy after a script, and its refused edits."""
        return self.remembered(("edit", text), lambda: self.hierarchy_of(text))

    def hierarchy_of(self, text):
        answer = self.kaba_on("edit", text)
        return {"nodes": nodes_in(answer.output.decode()), "refused": refusals_in(answer.error)}

    def regenerated(self, text=None):
        """The Java that is written after the script, and the steps to the tree or the conflict."""
        text = self.script.text() if text is None else text
        return self.remembered(("regen", text), lambda: self.regen_of(text))

    def regen_of(self, text):
        answer = self.kaba_on("regen", text, purpose="regen")
        return {"found": answer.status != NO_TREE, "text": answer.output.decode(), **tree_in(answer.error)}

    def state(self):
        """What the page shows of the script and of the hierarchy after it."""
        with self.lock:
            found = self.asked(self.script.text())
            lines = self.script.text().split("\n")
            names = words.Names(self.program, found["nodes"])
            refused = [words.refusal({**it, "index": it["line"] - 1}, lines, names) for it in found["refused"]]
            return {
                "revision": self.script.revision(),
                "script": str(self.script.path),
                "saved": self.script.known is not None,
                "changed": self.script.changed_outside(),
                "stale": self.program.changed_on_disk(),
                "steps": [{"title": scripts.title_of(it), "lines": it.lines} for it in self.script.steps],
                "undone": [{"title": scripts.title_of(it), "lines": it.lines} for it in self.script.undone],
                "tail": self.script.tail,
                "refused": refused,
                "nodes": found["nodes"],
            }

    def check(self, revision):
        if revision is not None and revision != self.script.revision():
            raise Stale("the script changed in the meantime: here is how it stands now")

    def tried(self, edits, title):
        """The script with one more step, its first refused edit or nothing, and the steps."""
        steps = [*self.script.steps, scripts.step_of(edits, title)]
        text = self.script.text(steps)
        front = len(self.script.lines(steps)) - len(edits)
        found = self.asked(text)
        new = [{**it, "index": it["line"] - 1 - front} for it in found["refused"] if it["line"] > front]
        return steps, (new[0] if new else None), found

    def edit(self, choices, title, revision):
        """Makes the first of some lists of edits that is accepted, as one step; else tells why the first is refused."""
        for edits in choices:
            check_edits(edits)
        with self.lock:
            self.check(revision)
            self.script.guard()
            told = None
            for edits in choices[:MOST_TRIES]:
                steps, refused, _ = self.tried(edits, title)
                if refused is None:
                    self.script.put(steps, [])
                    warning = next(filter(None, map(warning_of_edit, edits)), None)
                    return {"accepted": True, "warning": warning, "state": self.state()}
                told = told or words.refusal(refused, edits, self.names())
            return {"accepted": False, "refusal": told, "revision": self.script.revision()}

    def names(self):
        return words.Names(self.program, self.asked(self.script.text())["nodes"])

    def mends(self, edits, title, revision):
        """What would be accepted instead of a refused list of edits."""
        check_edits(edits)
        with self.lock:
            self.check(revision)
            _, refused, _ = self.tried(edits, title)
            if refused is None:
                return []
            at = refused["index"]
            edit = edit_of(edits[at], 1)
            offered = words.mends(refused, edit, self.names_before(edits[:at]))
            whole = [{**it, "edits": [*edits[:at], *it["edits"], *edits[at + 1 :]]} for it in offered]
            return [it for it in whole if self.tried(it["edits"], it["title"])[1] is None]

    def names_before(self, edits):
        if not edits:
            return self.names()
        return words.Names(self.program, self.tried(edits, "")[2]["nodes"])

    def undo(self, count, revision):
        """Takes back so many steps, or makes so many again where the count is below 0."""
        with self.lock:
            self.check(revision)
            steps, undone = list(self.script.steps), list(self.script.undone)
            for _ in range(abs(count)):
                if count > 0 and steps:
                    undone.insert(0, steps.pop())
                elif count < 0 and undone:
                    steps.append(undone.pop(0))
            self.script.put(steps, undone)
            return {"accepted": True, "state": self.state()}

    def without_refused(self, revision):
        """Takes the refused edits out of the script."""
        with self.lock:
            self.check(revision)
            lines = self.script.lines()
            bad = {it["line"] for it in self.asked(self.script.text())["refused"]}
            kept, at = [], 0
            for step in self.script.steps:
                left = [line for k, line in enumerate(step.lines, at + 1) if k not in bad]
                at += len(step.lines)
                if scripts.edits_of(scripts.Step(left)):
                    kept.append(scripts.Step([*regrouped(left)]))
            assert at == len(lines)
            self.script.put(kept, [])
            return {"accepted": True, "state": self.state()}

    def read_again(self):
        """Takes the program and the script as they stand on disk now."""
        with self.lock:
            script = scripts.Script(self.script.path)
            script.read()
            if self.program.changed_on_disk():
                self.read_program()
            self.asked(script.text())
            self.script = script
            return self.state()

    def read_program(self):
        """Takes the program's new text, where it is one that can be shown."""
        try:
            given = self.program.given.again()
        except SystemExit:
            raise Fault("what is there now cannot be brought in; the text before is kept") from None
        answer = self.runner.kaba("lattice", "-j", "-c", self.most, given.file)
        if answer.status:
            raise Fault(f"{answer.error or 'memory is short'}; the text before is kept")
        self.program = Program(given, self.folder, self.most)
        self.answers.clear()
        self.start = self.asked("")["nodes"]

    def keep_mine(self):
        """Writes the script over what another program wrote."""
        with self.lock:
            self.script.put(self.script.steps, self.script.undone, force=True)
            return self.state()


def regrouped(lines):
    """The lines of a step, its group's count put right."""
    count = len(scripts.edits_of(scripts.Step(lines)))
    for line in lines:
        group = scripts.GROUP.fullmatch(line)
        if not group:
            yield line
        elif count > 1:
            yield f"# {count} edits: {group[2]}"


def check_edits(edits):
    """Each is one line that is an edit."""
    if not edits or len(edits) > 4096:
        raise Fault("there is no edit to make" if not edits else "a script has at most 4096 edits")
    for line in edits:
        if not isinstance(line, str) or "\n" in line or edit_of(line, 1) is None:
            raise Fault(fault_of(line) if isinstance(line, str) and "\n" not in line else "an edit is one line")
