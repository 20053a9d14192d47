"""Whether a text is the program that was written: by `kaba same` where the program knows it, else by tests."""
from java_tree import NoTree, tree_of
from kaba_layout import has_word, head_words
from kaba_match import Changes, NoMatch, Rewriting, is_static, members_of
from kaba_runs import BOUNDS, WORDS, first_difference, side_by_side
from kaba_tools import Source, kaba

SAME, DIFFER, USAGE = 0, 1, 64


class Said:
    """What comes of a comparison: whether the texts are one program, whether that is proved, and a line on it."""

    def __init__(self, holds, is_proved, line):
        self.holds, self.is_proved, self.line = holds, is_proved, line


def part_of(text, written):
    """The first part of a text in which it is not the written program, but for order, modifiers and `this.`."""
    mine, theirs = ({it.name.name: it for it in tree_of(source)} for source in (text, written))
    if set(mine) != set(theirs):
        return "the types"
    for name, it in mine.items():
        other = theirs[name]
        if head_words(it) != head_words(other) or has_word(it.mods, "abstract") != has_word(other.mods, "abstract"):
            return f"the head of {name}"
        members, others = members_of(it), members_of(other)
        if len(members) != len(it.members) or set(members) != set(others):
            return f"the members of {name}"
        for key, member in members.items():
            if not is_member(name, member, others[key]):
                return f"{name}.{key}"
    return None


def is_member(holder, member, other):
    """Whether a member is another one, form by form."""
    changes = Changes()
    if is_static(member) != is_static(other):
        return False
    if member.kind == "Method" and (member.body is None) != (other.body is None):
        return False
    try:
        Rewriting(changes, holder, member, other)
    except NoMatch:
        return False
    return not changes.instead


def compared(text_file, written_file):
    """Whether two files are one program."""
    status, _, error = kaba("same", text_file, written_file)
    if status != USAGE:
        return Said(status == SAME, status == SAME, error or "`kaba same` finds one program in both texts")
    with open(text_file, "rb") as text, open(written_file, "rb") as written:
        try:
            part = part_of(Source(text.read()), Source(written.read()))
        except NoTree as error:
            part = str(error)
    if part:
        return Said(False, False, f"the patched text is not the written program in {part}")
    found = first_difference(text_file, written_file, side_by_side)
    if found:
        words, bound, was, now = found
        asked = f"with {bound} steps and the words {words}"
        return Said(False, False, f"{asked} the written program gives {now}, the patched text {was}")
    count = f"{len(WORDS)} lists of words at {len(BOUNDS)} bounds on the steps"
    done = f"both texts were run on {count} and do the same, which is a test and no proof"
    return Said(True, False, f"this program has no `kaba same`: {done}")
