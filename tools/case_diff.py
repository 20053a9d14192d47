"""How a case fails: the differences of what is wanted and what came, line by line."""
import difflib
import re

AROUND = 3  # so many equal lines are shown around a difference
MOST_COMPARED = 400  # so many lines of each side are compared line by line
MOST_SHOWN = 40  # so many lines of a difference are shown
LONG = 200  # a longer line is shown in pieces, broken behind its commas
PIECE = re.compile(rb"[^,]{0,199},|[^,]{1,200}")
NO_NEWLINE = "\\ no newline at end"


def shown(line):
    """A line as it can be seen: control characters, bytes that are not UTF-8 and spaces at the end as escapes."""
    text = line.decode("utf-8", "surrogateescape").replace("\\", "\\\\")
    text = re.sub("[\udc80-\udcff]", lambda found: f"\\x{ord(found[0]) - 0xDC00:02x}", text)
    text = text.replace("\t", "\\t").replace("\r", "\\r")
    text = re.sub("[\x00-\x1f\x7f]", lambda found: f"\\x{ord(found[0]):02x}", text)
    if text.endswith(" "):
        text = text[:-1] + "\\x20"
    return text


def lines_of(data):
    """The lines of a text, long ones in pieces; a last line without a newline is told."""
    lines = data.split(b"\n")
    last = lines.pop()
    broken = []
    for line in lines + ([last] if last else []):
        broken += PIECE.findall(line) if len(line) > LONG else [line]
    return [shown(line) for line in broken] + ([NO_NEWLINE] if last else [])


def same_front(left, right):
    """How many lines both begin with."""
    count = 0
    while count < min(len(left), len(right)) and left[count] == right[count]:
        count += 1
    return count


def difference(name, wanted, got):
    """The lines that tell how two texts differ."""
    left, right = lines_of(wanted), lines_of(got)
    front = same_front(left, right)
    back = same_front(left[front:][::-1], right[front:][::-1])
    first, behind = max(front - AROUND, 0), max(back - AROUND, 0)
    parts = [side[first : len(side) - behind][:MOST_COMPARED] for side in (left, right)]
    compared = list(difflib.unified_diff(*parts, n=AROUND, lineterm=""))[2:]
    lines = [line for line in compared if not line.startswith("@@")]
    more = [f"  .. and {len(lines) - MOST_SHOWN} lines more"] if len(lines) > MOST_SHOWN else []
    return [f"  {name}, - wanted, + got, from line {first + 1}:"] + ["  " + line for line in lines[:MOST_SHOWN]] + more


def differences(case, status, out, err):
    """The lines that tell how an answer differs from the wanted one; none where it is that."""
    lines = [] if status == case.status else [f"  status: wanted {case.status}, got {status}"]
    if case.both is not None:
        return lines + (difference("stdout and stderr", case.both, out) if out != case.both else [])
    compared = out[: len(case.stdout)] if case.is_front else out
    if compared != case.stdout:
        lines += difference("stdout begins" if case.is_front else "stdout", case.stdout, compared)
    if err != case.stderr:
        lines += difference("stderr", case.stderr, err)
    return lines
