"""The text of a changed program, put together of the old text's pieces: each member with its comments and layout."""
import re
from collections import Counter

from kaba_access import WORDS, Access, rank_of
from kaba_match import Changes, Rewriting, is_static

LINE_END = re.compile(r"\r\n|\n|\r")
FIRST_LINES = re.compile(r"(?:[ \t\f]*(?:\r\n|\n|\r))+")
BLANK_LINE = re.compile(r"(?:\r\n|\n|\r)[ \t\f]*(?:\r\n|\n|\r)")


def split_gap(text):
    """What stands between two tokens, parted: what belongs to the first of them, and what to the second.

    The rest of the first one's line belongs to it, with a comment that begins there; where both stand on one line
    all belongs to the second.
    """
    k = 0
    while k < len(text):
        if text[k] in "\r\n":
            return text[:k], text[k:]
        if text.startswith("//", k):
            k = next((found.start() for found in [LINE_END.search(text, k)] if found), len(text))
            if k == len(text):
                return text, ""
        else:
            k = text.index("*/", k) + 2 if text.startswith("/*", k) else k + 1
    return "", text


class Text:
    """A text by its tokens and by what stands between them."""

    def __init__(self, source):
        self.source, self.tokens = source, source.tokens
        ends = [0] + [token.at + len(token.text.encode()) for token in self.tokens]
        begins = [token.at for token in self.tokens] + [len(source.data)]
        self.gaps = [source.data[end:begin].decode() for end, begin in zip(ends, begins)]  # the one before each token
        whole = source.data.decode()
        self.line_end = next((found[0] for found in [LINE_END.search(whole)] if found), "\n")

    def lead(self, first):
        """What stands before a token and belongs to it."""
        return split_gap(self.gaps[first])[1] if first else self.gaps[0]

    def trail(self, last):
        """What stands behind a token and belongs to it."""
        return split_gap(self.gaps[last + 1])[0]

    def changed(self, first, last, changes):
        """The text between two tokens with its changes; with a token that is left out go the blanks behind it."""
        parts, left_out = [], False
        for k in range(first, last + 1):
            if k > first and not (left_out and not self.gaps[k].strip()):
                parts.append(self.gaps[k])
            said = changes.instead.get(k, self.tokens[k].text)
            left_out = said == ""
            parts += [changes.before.get(k, ""), said, changes.behind.get(k, "")]
        return "".join(parts)


def without_first_lines(lead, line_end):
    """What leads to the first member of a type: on the next line, with no empty one between."""
    found = FIRST_LINES.match(lead)
    return line_end + lead[found.end() :] if found else lead


def head_words(declaration):
    """The head of a type: what stands from its word on."""
    names = ", ".join(face.name for face in declaration.faces)
    if declaration.kind == "Interface":
        return f"interface {declaration.name.name}" + (f" extends {names}" if names else "")
    parent = f" extends {declaration.parent.name}" if declaration.parent else ""
    return f"class {declaration.name.name}{parent}" + (f" implements {names}" if names else "")


def has_word(mods, word):
    return any(it.name == word for it in mods)


class Pieces:
    """The pieces of the changed text: its types and members."""

    def __init__(self, source, old, written, new, placed):
        self.text, self.written = Text(source), Text(written)
        self.old = {it.name.name: it for it in old}
        self.new = {it.name.name: it for it in new}
        self.placed, self.access, self.changes = placed, Access(new, placed), Changes()
        self.line_end = self.text.line_end
        self.indent = self.indent_of_members()
        self.spaced_methods = self.are_spaced([m for it in old for m in it.members[1:] if m.kind == "Method"])
        self.spaced_types = self.are_spaced(old[1:])
        for name, members in placed.items():
            for member in members:
                if member.old:
                    Rewriting(self.changes, name, member.old, member.new)
                    self.put_modifiers(name, member)

    def indent_of_members(self):
        """The blanks before most members that begin a line."""
        members = [member for it in self.old.values() for member in it.members]
        found = [re.search(r"[\r\n]([ \t\f]+)$", self.text.lead(member.first)) for member in members]
        return Counter(it[1] for it in found if it).most_common(1)[0][0] if any(found) else "  "

    def are_spaced(self, forms):
        """Whether an empty line stands before most of these forms."""
        spaced = [bool(BLANK_LINE.match(self.text.lead(form.first))) for form in forms]
        return sum(spaced) * 2 > len(spaced)

    def put_modifiers(self, name, placed):
        """The modifiers that an old member has in its type."""
        mods, first = placed.old.mods, placed.old.first
        if self.new[name].kind == "Interface":
            for word in mods:
                self.changes.put(word.at, "")
            return
        if self.old[placed.owner].kind == "Interface":
            # A head of an interface is public and abstract without a word.
            for word in mods:
                self.changes.put(word.at, "")
            self.changes.before[first] = "public abstract "
            return
        rank = self.rank(name, placed.new)
        if rank != rank_of(mods):
            at = next((word.at for word in mods if word.name in WORDS.values()), None)
            if at is not None:
                self.changes.put(at, WORDS.get(rank, ""))
            else:
                self.changes.before[first] = f"{WORDS[rank]} "
        for word in mods:
            if word.name == "final" and not is_static(placed.old) and not self.access.may_be_final(name, placed.new):
                self.changes.put(word.at, "")

    def rank(self, name, member):
        return self.access.ranks[name, member.name.name + ("()" if member.kind == "Method" else "")]

    def old_member(self, placed, is_first, is_at_home):
        """An old member with all that belongs to it."""
        text, member = self.text, placed.old
        lead = text.lead(member.first)
        if not (is_at_home and self.old[placed.owner].members[0] is member and is_first):
            if not LINE_END.search(lead) and not is_at_home:
                lead = self.line_end + self.indent + lead.lstrip(" \t\f")
            lead = self.spaced(lead, member, is_first) if LINE_END.search(lead) else lead
        return lead + text.changed(member.first, member.last, self.changes) + text.trail(member.last)

    def spaced(self, lead, member, is_first):
        if is_first:
            return without_first_lines(lead, self.line_end)
        is_spaced = BLANK_LINE.match(lead) or member.kind != "Method" or not self.spaced_methods
        return lead if is_spaced else self.line_end + lead

    def new_member(self, name, placed, is_first):
        """A member that no old one stands for: a head, or a method that gives a type what it lacks and no run calls."""
        member = placed.new
        words = [WORDS.get(self.rank(name, member), "")] if self.new[name].kind == "Class" else []
        if words and member.body is None:
            words.append("abstract")
        mods = "".join(f"{word} " for word in words if word)
        lines = self.written.changed(member.type.at, member.last, Changes()).split("\n")
        said = [mods + lines[0]] + [self.further_line(line) for line in lines[1:]]
        lead = self.line_end + (self.line_end if self.spaced_methods and not is_first else "")
        if member.body is not None:
            said.insert(0, "// never called")
        return lead + self.line_end.join(self.indent + line for line in said)

    def further_line(self, line):
        """A line of the written text behind the first of a member, without the member's own indent."""
        return re.sub("^(?:  )+", lambda found: self.indent * (len(found[0]) // 2 - 1), line)

    def members(self, name, home):
        """The members of a type: the old ones of its home, of other classes, and the new ones."""
        order = list(self.old)
        olds = [it for it in self.placed[name] if it.old]
        olds.sort(key=lambda it: (it.owner != home, order.index(it.owner), it.old.first))
        parts = [self.old_member(it, k == 0, it.owner == home) for k, it in enumerate(olds)]
        for it in self.placed[name]:
            if not it.old:
                parts.append(self.new_member(name, it, not parts))
        return "".join(parts)

    def new_type(self, name):
        """A type that is none of the old classes, without what leads to it."""
        new = self.new[name]
        mods = "abstract " if has_word(new.mods, "abstract") else ""
        return f"{mods}{head_words(new)} {{" + self.members(name, None) + self.line_end + "}"

    def old_type(self, name, home):
        """A type that an old class becomes, without what leads to it, and with what stands behind it on its line."""
        text, old, new = self.text, self.old[home], self.new[name]
        self.put_head(old, new)
        members = self.members(name, home)
        head = text.changed(old.first, old.opens, self.changes) + text.trail(old.opens)
        tail = text.lead(old.last)
        if LINE_END.search(members) and not LINE_END.search(tail):
            tail = self.line_end
        return head + members + tail + "}" + text.trail(old.last)

    def put_head(self, old, new):
        """Changes the head of a class where it is another one."""
        for word in old.mods:
            is_wrong = word.name == "abstract" and not has_word(new.mods, "abstract")
            is_wrong |= word.name == "final" and bool(self.access.below[new.name.name])
            is_wrong |= word.name == "public" and old.name.name != new.name.name
            if is_wrong:
                self.changes.put(word.at, "")
        words = head_words(new)
        if has_word(new.mods, "abstract") and not has_word(old.mods, "abstract"):
            words = f"abstract {words}"
        if words != head_words(old):
            for at in range(old.word, old.opens - 1):
                self.changes.put(at, "")
            self.changes.put(old.opens - 1, words)
