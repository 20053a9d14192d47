"""All faults of a text: the program tells the first, it is taken out of a copy, and the program is asked again."""
import re
import tempfile
from collections import namedtuple
from pathlib import Path

from explain_fault import fault_of
from explain_mend import Mender
from explain_tokens import Mended
from kaba_tools import FILE_LIMIT, Source, kaba

# at: the place in the user's own text, or none; the rest as of a fault.
Found = namedtuple("Found", "at exact kind sentence")

REFUSED = re.compile(r"kaba: refused: (.*)")


def refusal_of(data):
    """What the program says of a text's bytes behind `refused: `, or nothing where it takes them."""
    with tempfile.TemporaryDirectory() as folder:
        file = Path(folder, "asked.java")
        file.write_bytes(data)
        status, _, error = kaba("run", str(file), "0")
    return REFUSED.fullmatch(error)[1] if status == 65 else None


# So often the program is asked, and so many faults are told.
MOST_TRIES = 2000
BY_NAME = ("Unknown", "Twice", "Loop", "Overload", "TwoKinds", "PrivateReused")


class Faults:
    """The faults of a text, in the order in which the program meets them."""

    def __init__(self, data):
        self.text = Mended(data)
        self.mender = Mender(self.text)
        self.found, self.is_whole = [], False
        self.look()

    def look(self):
        """Goes from fault to fault, until the text is taken or nothing more can be taken out."""
        for _ in range(MOST_TRIES):
            why = refusal_of(self.text.data)
            if why is None:
                self.is_whole = True
                return
            fault = fault_of(Source(self.text.data), why, refusal_of)
            self.note(fault)
            if fault.at is None or not self.is_taken_out(fault) or len(self.text.data) > FILE_LIMIT:
                self.is_whole = fault.at is None
                return

    def note(self, fault):
        """Keeps a fault, but not one that is there only since something was taken out."""
        if fault.kind == "Unknown" and fault.name in self.mender.lost:
            return
        if fault.kind == "NoMain" and self.found:
            return
        if fault.kind.startswith("IllTyped") and self.mender.names_at(fault.at) & self.mender.lost:
            return
        at = None if fault.at is None else self.text.origin(fault.at)
        found = Found(at, fault.exact, fault.kind, fault.sentence)
        if found not in self.found:
            self.found.append(found)

    def is_taken_out(self, fault):
        """Takes the fault out; a text that is too broken to find one's way in it is left as it is."""
        try:
            return self.take_out(fault)
        except (IndexError, UnicodeError):
            return False

    def take_out(self, fault):
        """Takes the fault out of the text, by a rule for its form, or with larger and larger parts of the text."""
        mender, before = self.mender, self.text.data
        if fault.kind == "OpenComment":
            self.text.change((fault.at, len(before), ""))
            return True
        by_form = fault.kind.split(" ")[0] not in (*BY_NAME, "IllTyped", "NotInProfile")
        if by_form and mender.mend(fault.at) and self.text.data != before:
            return True
        at = fault.at if fault.exact else self.first_word(fault.at)
        if fault.kind == "IllTyped Arguments" and mender.without_arguments(at):
            return True
        if fault.kind in ("Unknown", "TwoKinds", "Overload"):
            mender.lost.add(fault.name)
        return mender.without_statement(at) or mender.without_body(at) or mender.without_member(at)

    def first_word(self, at):
        """The place of the first piece of a line: where the line alone is known, the statement there is meant."""
        k = self.text.at(at)
        return self.text.pieces[k].start if k < len(self.text.pieces) else at


def grouped(found):
    """The faults of one kind and sentence together: the program's own first one, and then by their places."""
    groups = {}
    for fault in found:
        groups.setdefault((fault.kind, fault.sentence), []).append(fault)
    for faults in groups.values():
        faults.sort(key=lambda fault: -1 if fault.at is None else fault.at)
    rest = sorted(groups.values(), key=lambda faults: -1 if faults[0].at is None else faults[0].at)
    return sorted(rest, key=lambda faults: found[0] not in faults)
