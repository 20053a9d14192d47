"""What always comes together, in words: the least base of implications that `kaba base` prints."""
import re

from kaba_tools import class_of, fail, kaba

LINE = re.compile(r"i\d+: (-|c\d+(?: c\d+)*) -> (c\d+(?: c\d+)*)")
TOO_MUCH = (67, 68)


def implications(file):
    """The implications, each the columns of its left side and those that it adds; or why there are none."""
    status, output, error = kaba("base", file)
    if status in TOO_MUCH:
        return [], error.removeprefix("kaba: ")
    if status:
        fail(error or f"the program ends with {status}", status)
    found = [LINE.fullmatch(line) for line in output.decode().splitlines()[1:]]
    return [tuple([int(word[1:]) for word in side.split() if word != "-"] for side in it.groups()) for it in found], None


def joined(words):
    return " and ".join([", ".join(words[:-1]), words[-1]] if len(words) > 1 else words)


def of_names(analysis, columns, names):
    return any(class_of(analysis.lattice.columns[c]) in names for c in columns)


def line(analysis, left, added, most=12):
    """An implication in words: who needs the left side needs what is added, or nothing needs all of the left side."""
    rows = set.intersection(*(set(analysis.rows_of[c]) for c in left)) if left else set(range(len(analysis.lattice.rows)))
    needed = joined(analysis.members_words(left, None))
    if not rows:
        return f"  nothing needs {needed}" + (" together" if len(left) > 1 else "")
    words = analysis.members_words(added, None)
    more = words[:most] + ([f"{len(words) - most} more"] if len(words) > most else [])
    return f"  whoever needs {needed} needs {joined(more)} too" if left else f"  everything needs {joined(more)}"


def section(analysis, names, most=24):
    """The lines that tell what always comes together, of the members of these classes, the first ones where there are many."""
    found, why = implications(analysis.file)
    if why:
        return [f"  not told: {why}"]
    about = [(left, added) for left, added in found if of_names(analysis, left, names) or not left and of_names(analysis, added, names)]
    lines = [line(analysis, left, added) for left, added in about]
    if len(lines) > most:
        lines[most:] = [f"  and {len(lines) - most} more, which kaba base prints"]
    return lines or ["  none"]
