"""The sources of everyday Java as the workbench shows them: where a member, a variable or a creation of the text stands."""
import re

WORD = re.compile(r"[A-Za-z_$][\w$]*")
MARKED = re.compile(r"(new|cast|instanceof) (\w+)")
MOST_LINES = 6  # between the first word of a declaration, as an annotation, and its name


class Spots:
    """The words of the lines that are shown, and what stands at each."""

    def __init__(self, analysis):
        self.analysis, self.given = analysis, analysis.given
        self.lines = self.given.shown_lines("")
        self.items, self.taken = {}, set()  # of a word, its line and column: the items

    def words(self, line, column):
        """The words from a place on."""
        for number in range(line, min(line + MOST_LINES, len(self.lines) + 1)):
            for found in WORD.finditer(self.lines[number - 1], column - 1 if number == line else 0):
                yield (number, found.start()), found[0]

    def put(self, inner_line, item, word, before=None, whole_line=False):
        """Puts an item at the first free word of its name behind the place of a line of the text, or in its line."""
        place = self.given.place(inner_line)
        line = self.given.shown_line(inner_line)
        if not line:
            return
        last = None
        for at, found in self.words(line, 1 if whole_line else place[2]):
            if found == word and before in (None, last) and (at, item[0]) not in self.taken:
                if item[0] == "r":
                    self.taken.add((at, item[0]))
                self.items.setdefault(at, []).append(item)
                return
            last = found

    def columns(self):
        for c, label in enumerate(self.analysis.lattice.columns):
            if label.startswith("is("):
                continue
            name = self.analysis.member(c)
            key = f"{name}()" if self.analysis.is_method(c) else name
            was = self.given.members.get(key, {}).get("was")
            if was:
                self.put(self.analysis.column_line(c), f"c{c}", was.rpartition(".")[2])

    def rows(self):
        for r, label in enumerate(self.analysis.lattice.rows):
            line, found = self.analysis.row_lines[r], MARKED.match(label)
            if found:
                said = self.given.label(found[2]).partition("<")[0].rpartition(".")[2]
                self.put(line, f"r{r}", said, "new" if found[1] == "new" else None)
                continue
            front, _, last = label.rpartition(".")
            member = self.given.members.get(f"{front}()", {}).get("was")
            was = self.given.variables.get(label, {}).get("was") or self.given.members.get(label, {}).get("was")
            if last in ("this", "return") and member:
                self.put(line, f"r{r}", member)
                self.taken = {it for it in self.taken if it[0] not in self.items or f"r{r}" not in self.items[it[0]]}
            elif was:
                # A parameter stands behind the beginning of its method; a local may stand before a part of its value.
                is_local = label in self.given.variables and line != self.analysis.declared.members.get(f"{front}()")
                self.put(line, f"r{r}", was, None, is_local)

    def pieces(self):
        found = []
        for number, line in enumerate(self.lines, 1):
            cuts, end = [], 0
            for word in WORD.finditer(line):
                items = self.items.get((number, word.start()))
                if items:
                    cuts += [[line[end : word.start()]], [word[0], items]]
                    end = word.end()
            cuts.append([line[end:]])
            found.append([cut for cut in cuts if cut[0]])
        return found


def everyday_pieces(analysis):
    """Each line of the sources as a list of pieces: a text, and the columns and rows that stand there."""
    spots = Spots(analysis)
    spots.columns()
    spots.rows()
    return spots.pieces()
