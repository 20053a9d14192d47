"""Why the edits of a script are refused: the part of the obligation, what stands in the way, and what would mend it."""
import sys
from collections import namedtuple

from explain_edits import After, Names, reason
from explain_mends import mends
from kaba_analysis import analyse
from kaba_hierarchy import REFUSED, hierarchy, refusals_in, asked as ask_program
from kaba_scripts import edits_in, faults_in
from kaba_tools import bytes_of

BAD_SCRIPT, MADE = 69, 0
MOST = 16384

Case = namedtuple("Case", "edit refusal before")  # the edit, why it is refused, and the hierarchy before it


class Script:
    """A script on a file: what each of its refused edits meets."""

    def __init__(self, file, name):
        self.file, self.name, self.data = file, name, bytes_of(name)
        self.lines = self.data.split(b"\n")
        self.edits = edits_in(self.data)

    def before(self, number):
        """The script up to a line, without it."""
        return b"\n".join(self.lines[: number - 1]) + b"\n" if number > 1 else b""

    def refusals(self, script):
        """The refusals of a script's bytes."""
        return refusals_in(ask_program("edit", self.file, self.name, script, MOST)[2])

    def is_made(self, number, texts):
        """Whether these edits, in place of that of a line, are all made."""
        front = self.before(number)
        first = front.count(b"\n") + 1
        refused = self.refusals(front + "".join(text + "\n" for text in texts).encode())
        return not any(refusal["line"] >= first for refusal in refused)

    def cases(self):
        """Each refused edit with the hierarchy that it met."""
        found = self.refusals(self.data)
        for refusal in found:
            before = hierarchy(self.file, self.name, MOST, script=self.before(refusal["line"]))
            yield Case(self.edits[refusal["line"]], refusal, before)


def tell(script, number, message):
    print(f"{script.name}:{number}: {message}")
    print("    " + script.lines[number - 1].decode(errors="replace"))


def explain_script(file, name):
    """Tells each line that is no edit, or else each edit that is refused; gives the status of `kaba edit`."""
    script = Script(file, name)
    faults = faults_in(script.data)
    for number, why in faults:
        tell(script, number, f"no edit: {why}")
    if faults:
        print(f"{name}: {len(faults)} lines are no edits, so that nothing of the script is made")
        return BAD_SCRIPT
    names, count = Names(analyse(file, MOST)), 0
    for case in script.cases():
        count += 1
        after = After(case.before, case.edit)
        tell(script, case.edit.line, reason(case, after, names))
        found = next((texts for texts in mends(case, after, names) if script.is_made(case.edit.line, texts)), None)
        if found:
            print(f"    would be made: {', and then '.join(found)}")
    if not count:
        print(f"{name}: each edit is made: {len(script.edits)}")
        return MADE
    print(f"{name}: {count} of {len(script.edits)} edits are refused, each told as it meets the edits before it")
    return REFUSED
