"""The tokens of a text as Java has them, past what the language does not have, and a text that is changed in pieces.

`Mended` is a text of which each byte knows the place of the original that it stands for: so what is found in the
changed text is told with its place in the user's own.
"""
import bisect
import re
from collections import namedtuple

# kind: word, number, char, string or mark; start and end: its bytes.
Piece = namedtuple("Piece", "kind text start end")

PIECE = re.compile(
    rb"(?P<blank>[ \t\f\r\n]+|//[^\r\n]*|/\*.*?(?:\*/|\Z))"
    rb'|(?P<string>"""(?:[^\\]|\\.)*?(?:"""|\Z)|"(?:[^"\\\r\n]|\\[^\r\n])*"?)'
    rb"|(?P<char>'(?:[^'\\\r\n]|\\[^\r\n]?[^'\r\n]*)'?)"
    rb"|(?P<number>[0-9](?:[eEpP][+-]|[\w.])*|\.[0-9](?:[eE][+-]|\w)*)"
    rb"|(?P<word>(?:[A-Za-z_$0-9]|[\x80-\xff])+)"
    rb"|(?P<mark>\.\.\.|->|::|\+\+|--|&&|\|\||[-+*/%=!<>&|^]=|[^\w\s])",
    re.S,
)
OPENS, CLOSES = {"(": ")", "[": "]", "{": "}"}, {")": "(", "]": "[", "}": "{"}


def pieces_of(data):
    """The pieces of a text, blanks and comments left out."""
    found, at = [], 0
    while at < len(data):
        piece = PIECE.match(data, at)
        end = piece.end() if piece else at + 1
        kind = piece.lastgroup if piece else "mark"
        if kind != "blank":
            found.append(Piece(kind, data[at:end].decode(errors="replace"), at, end))
        at = end
    return found


class Pieces:
    """A text in pieces, and how its brackets lie."""

    def __init__(self, data):
        self.data = data
        self.read()

    def read(self):
        self.pieces = pieces_of(self.data)
        self.starts = [piece.start for piece in self.pieces]

    def text(self, k):
        return self.pieces[k].text if 0 <= k < len(self.pieces) else ""

    def kind(self, k):
        return self.pieces[k].kind if 0 <= k < len(self.pieces) else ""

    def at(self, place):
        """The number of the piece that stands at a place, or the first one behind it."""
        k = bisect.bisect_right(self.starts, place) - 1
        return k if k >= 0 and place < self.pieces[k].end else k + 1

    def closing(self, k):
        """The piece that closes the bracket of one, or the last of all."""
        depth = 0
        for at in range(k, len(self.pieces)):
            depth += (self.text(at) in OPENS) - (self.text(at) in CLOSES)
            if depth == 0:
                return at
        return len(self.pieces) - 1

    def opening(self, k):
        """The piece that opens the bracket which a piece closes, or -1."""
        depth = 0
        for at in range(k, -1, -1):
            depth += (self.text(at) in CLOSES) - (self.text(at) in OPENS)
            if depth == 0:
                return at
        return -1

    def around(self, k):
        """The brackets that are open before a piece, the outermost first."""
        found = []
        for at in range(min(k, len(self.pieces))):
            if self.text(at) in OPENS:
                found.append(at)
            elif self.text(at) in CLOSES and found:
                found.pop()
        return found

    def angles(self, k):
        """The piece that closes an angle bracket, where it closes before anything that no type has."""
        depth = 0
        for at in range(k, min(k + 60, len(self.pieces))):
            depth += {"<": 1, ">": -1}.get(self.text(at), 0)
            if depth == 0:
                return at
            fits = self.kind(at) == "word" or self.text(at) in ("<", ">", ",", ".", "?", "&", "[", "]")
            if not fits:
                return None
        return None


class Mended(Pieces):
    """A text that is changed, with the place in the original of each of its bytes."""

    def __init__(self, data):
        self.origins = list(range(len(data) + 1))
        super().__init__(data)

    def origin(self, at):
        """The place in the original of a place."""
        return self.origins[min(at, len(self.origins) - 1)]

    def replace(self, first, last, text=""):
        """A change of the pieces from one to another, both with it; none where there are no such pieces."""
        if not 0 <= first <= last < len(self.pieces):
            return (0, 0, "")
        return (self.pieces[first].start, self.pieces[last].end, text)

    def change(self, *changes):
        """Makes some changes at once: each a first and a last byte, and what stands in place of what is between."""
        for start, end, text in sorted(changes, reverse=True):
            text = text.encode()
            self.data = self.data[:start] + text + self.data[end:]
            self.origins[start:end] = [self.origins[min(start, len(self.origins) - 1)]] * len(text)
        self.read()
