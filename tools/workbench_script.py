"""The script of the workbench: a file of edits in steps, each of which is undone and redone as a whole.

A step is one edit, or several behind a line `# 3 edits: WORDS`. What was undone stands at the end of the file behind
`# undone: `, which says nothing to the program, so that it can be redone when the same file is opened again.
"""
import hashlib
import os
import re
import tempfile
from collections import namedtuple
from pathlib import Path

from kaba_scripts import edit_of, faults_in, says_nothing
from workbench_runs import Fault

Step = namedtuple("Step", "lines")  # its comments and its edits, as they stand in the file

GROUP = re.compile(r"# ([1-9][0-9]{0,3}) edits: ?(.*)")
UNDONE = "# undone: "


def edits_of(step):
    return [line for line in step.lines if not says_nothing(line)]


def title_of(step):
    """What a step does in the words of its group, else its edit."""
    for line in step.lines:
        group = GROUP.fullmatch(line)
        if group and group[2]:
            return group[2]
    return "; ".join(edits_of(step))


def step_of(edits, title):
    """The step of some edits."""
    words = re.sub(r"\s+", " ", title).strip()[:200]
    return Step([f"# {len(edits)} edits: {words}", *edits] if len(edits) > 1 else list(edits))


def steps_in(lines):
    """The steps of some lines, and what stands behind the last edit."""
    steps, open_lines, wanted = [], [], 1
    for line in lines:
        open_lines.append(line)
        if says_nothing(line):
            group = GROUP.fullmatch(line)
            if group:
                wanted = int(group[1])
            continue
        if len(edits_of(Step(open_lines))) >= wanted:
            steps.append(Step(open_lines))
            open_lines, wanted = [], 1
    if edits_of(Step(open_lines)):
        return [*steps, Step(open_lines)], []
    return steps, open_lines


class Script:
    """The steps that are made, those that are undone, and the file that keeps both."""

    def __init__(self, path):
        self.path = Path(path)
        self.steps, self.undone, self.tail, self.known = [], [], [], None

    def read(self):
        """Takes what the file has; where there is none, the script is empty until the first edit."""
        try:
            data = self.path.read_bytes()
        except FileNotFoundError:
            data = None
        except OSError as error:
            raise Fault(f"cannot read {self.path}: {error.strerror}") from None
        self.take(data or b"")
        self.known = data

    def take(self, data):
        faults = faults_in(data)
        if faults:
            raise Fault(f"{self.path}:{faults[0][0]}: {faults[0][1]}")
        lines = data.decode().split("\n")
        if lines[-1] == "":
            lines.pop()
        undone = [line[len(UNDONE) :] for line in lines if line.startswith(UNDONE)]
        self.steps, self.tail = steps_in([line for line in lines if not line.startswith(UNDONE)])
        bad = any(not says_nothing(line) and edit_of(line, 1) is None for line in undone)
        self.undone = [] if bad else steps_in(undone)[0]

    def lines(self, steps=None):
        """The lines of the edits, without those that are undone."""
        return [line for step in (self.steps if steps is None else steps) for line in step.lines]

    def text(self, steps=None):
        """The script as the program is given it, and as it is handed out."""
        return "".join(line + "\n" for line in [*self.lines(steps), *self.tail])

    def whole(self):
        """What the file has."""
        return self.text() + "".join(f"{UNDONE}{line}\n" for step in self.undone for line in step.lines)

    def revision(self):
        return hashlib.sha256(self.whole().encode()).hexdigest()[:16]

    def changed_outside(self):
        """Whether the file is not as it was read or written last."""
        try:
            now = self.path.read_bytes()
        except FileNotFoundError:
            now = None
        except OSError as error:
            raise Fault(f"cannot read {self.path}: {error.strerror}") from None
        return now != self.known

    def guard(self):
        """Nothing is written over what another program wrote."""
        if self.changed_outside():
            raise Fault(f"{self.path} was changed by another program since it was read here: read it again first")

    def put(self, steps, undone, force=False):
        """Makes these the steps; the file is written before anything else changes."""
        if not force:
            self.guard()
        before = self.steps, self.undone
        self.steps, self.undone = steps, undone
        data = self.whole().encode()
        try:
            write_whole(self.path, data)
        except OSError as error:
            self.steps, self.undone = before
            raise Fault(f"cannot write {self.path}: {error.strerror}; nothing was changed") from None
        self.known = data


def write_whole(path, data):
    """Writes a file beside the path, and gives it the path's name when it is whole."""
    path = Path(os.path.realpath(path))
    descriptor, name = tempfile.mkstemp(prefix=f".{path.name[:100]}.", dir=path.parent)
    try:
        with open(descriptor, "wb") as opened:
            opened.write(data)
            opened.flush()
            os.fsync(opened.fileno())
        try:
            mode = path.stat().st_mode & 0o777
        except FileNotFoundError:
            mask = os.umask(0)
            os.umask(mask)
            mode = 0o666 & ~mask
        os.chmod(name, mode)
        os.replace(name, path)
    except OSError:
        os.unlink(name)
        raise
