"""How a form that the language does not have is taken out of a text, so that what stands behind it is looked at too.

Each rule knows a form by the pieces round the place of a refusal, and gives the changes that leave the least of it.
What a rule takes out may have declared names: they are noted, and what is unknown only for that is told to nobody.
"""
import re

TYPES = {"long": "int", "short": "int", "byte": "int", "float": "int", "double": "int", "var": "int"}
LEFT_OUT = {"synchronized", "volatile", "transient", "native", "strictfp", "sealed", "default"}
MODIFIERS = {"public", "protected", "private", "abstract", "static", "final"} | LEFT_OUT
ENDS = (";", "{", "}")
# Where a conditional expression begins and ends, at its own depth.
BEFORE_CHOICE = {"=", "(", ",", "return", ";", "{", "}", "[", "?", ":", "->"} | {mark + "=" for mark in "+-*/%&|^"}
BEHIND_CHOICE = {")", ",", ";", "]", "}", ":"}


class Mender:
    """Takes faults out of a text, one after the other."""

    def __init__(self, text):
        self.text = text
        self.lost = set()  # names whose declarations were taken out

    def mend(self, at):
        """Takes out what is refused at a place of the text; gives whether a rule knew it."""
        k = self.text.at(at)
        for rule in RULES:
            changes = rule(self, k)
            if changes:
                self.text.change(*changes)
                return True
        return False

    # What stands round a piece

    def first_of_statement(self, k):
        """The first piece of the statement or member in which a piece stands."""
        depth = 0
        while k > 0:
            before = self.text.text(k - 1)
            if depth == 0 and before in ENDS:
                break
            depth += (before in (")", "]")) - (before in ("(", "["))
            if depth < 0:
                depth = 0
            k -= 1
        return k

    def end_of_statement(self, k):
        """The `;` that ends the simple statement of a piece, or the bracket behind which none can stand."""
        depth = 0
        while k < len(self.text.pieces):
            here = self.text.text(k)
            if depth == 0 and here == ";":
                return k
            depth += (here in ("(", "[", "{")) - (here in (")", "]", "}"))
            if depth < 0:
                return k - 1
            k += 1
        return len(self.text.pieces) - 1

    def names_at(self, at):
        """The names in the statement of a place."""
        first = self.first_of_statement(self.text.at(at))
        pieces = range(first, self.end_of_statement(first) + 1)
        return {self.text.text(k) for k in pieces if self.text.kind(k) == "word"}

    def names_in(self, first, last):
        """Notes the names that are declared between two pieces: behind a type, and before what follows a name."""
        for k in range(first, last + 1):
            ends = self.text.text(k + 1) in ("=", ";", ",", ")", "(", ":", "{", "->", "[")
            named = ends and self.text.kind(k) == "word"
            if named and (self.text.kind(k - 1) == "word" or self.text.text(k - 1) in ("]", ">")):
                if self.text.text(k - 1) not in ("return", "new", "else", "throw"):
                    self.lost.add(self.text.text(k))

    def without(self, first, last, text=""):
        self.names_in(first, last)
        return [self.text.replace(first, last, text)]

    # Larger and larger parts, where no rule knows the form

    def without_statement(self, at):
        """Takes out the simple statement of a place, or the head of the one with a body."""
        k = self.text.at(at)
        first = self.first_of_statement(k)
        if self.text.text(first) in ("if", "while", "for") and self.text.text(first + 1) == "(":
            close = self.text.closing(first + 1)
            if k <= close:
                self.names_in(first, close)
                return self.put([self.text.replace(first, close, "if (true)")])
            first = close + 1
        last = self.end_of_statement(first)
        if last < k or self.text.around(k)[1:] == []:
            return False
        ends = self.text.text(last) == ";"
        value = self.value_of_local(first, k)
        return self.put(self.without(value or first, last - ends))

    def value_of_local(self, first, k):
        """The `=` of a local whose value, and not its type or name, has the place; or nothing."""
        equals = next((at for at in range(first, k + 1) if self.text.text(at) == "="), None)
        if equals is None or equals < first + 2 or self.text.kind(equals - 1) != "word":
            return None
        is_type = self.text.kind(equals - 2) == "word" or self.text.text(equals - 2) == "]"
        return equals if is_type and self.text.kind(first) == "word" else None

    def without_arguments(self, at):
        """Takes out the arguments of the creation at a place."""
        k = self.text.at(at)
        if self.text.text(k) != "new" or self.text.text(k + 2) != "(":
            return False
        return self.put([self.text.replace(k + 2, self.text.closing(k + 2), "()")])

    def without_body(self, at):
        """Takes out what stands in the innermost body of a method in which a place is."""
        around = self.text.around(self.text.at(at))
        if len(around) < 2 or self.text.text(around[1]) != "{":
            return False
        last = self.text.closing(around[1])
        return last > around[1] + 1 and self.put(self.without(around[1] + 1, last - 1))

    def without_member(self, at):
        """Takes out the member of a class in which a place is, or the class."""
        k = self.text.at(at)
        around = self.text.around(k)
        first = self.first_of_statement(around[1] if len(around) > 1 else k)
        last = k
        while last < len(self.text.pieces) - 1 and self.text.text(last) not in (";", "{"):
            last += 1
        if self.text.text(last) == "{":
            last = self.text.closing(last)
        return last >= first and self.put(self.without(first, last))

    def put(self, changes):
        before = self.text.data
        self.text.change(*changes)
        return self.text.data != before


def annotation(mender, k):
    text = mender.text
    if text.text(k) != "@":
        return None
    last = k + 1
    while text.text(last + 1) == ".":
        last += 2
    if text.text(last) == "interface":
        return mender.without(k, text.closing(last + 2))
    if text.text(last + 1) == "(":
        last = text.closing(last + 1)
    return [text.replace(k, last)]


def at_top(mender, k):
    """A package or an import."""
    for at in (k, k - 1):
        if mender.text.text(at) in ("package", "import"):
            return [mender.text.replace(at, mender.end_of_statement(at))]
    return None


def for_each(mender, k):
    text = mender.text
    if text.text(k) != ":" or not text.around(k) or text.text(text.around(k)[-1] - 1) != "for":
        return None
    return [text.replace(k, text.closing(text.around(k)[-1]), "; ; )")]


def choice(mender, k):
    """A conditional expression: its second part is left."""
    text = mender.text
    if text.text(k) != "?":
        return None
    first = k
    while first > 0:
        before = text.text(first - 1)
        if before in BEFORE_CHOICE:
            break
        first = text.opening(first - 1) if before in (")", "]") else first - 1
    colon, depth = k + 1, 0
    while colon < len(text.pieces) and not (depth == 0 and text.text(colon) == ":"):
        depth += (text.text(colon) in ("(", "[", "{", "?")) - (text.text(colon) in (")", "]", "}", ":"))
        if depth < 0:
            return None
        colon += 1
    last = colon + 1
    while last < len(text.pieces) and text.text(last) not in BEHIND_CHOICE:
        if text.text(last) == "?":
            return None if last == colon + 1 else [text.replace(first, k), text.replace(colon, last)]
        last = (text.closing(last) if text.text(last) in ("(", "[", "{") else last) + 1
    return [text.replace(first, k), text.replace(colon, last - 1)]


def label(mender, k):
    """A label, or what of a switch of another kind is left."""
    text = mender.text
    if text.text(k) == ":" and text.kind(k - 1) == "word" and text.text(k - 2) in ENDS + (")",):
        return [text.replace(k - 1, k)]
    if text.text(k - 1) in ("break", "continue") and text.kind(k) == "word":
        return [text.replace(k, k)]
    return None


def switch(mender, k):
    """A switch: it is taken out whole, whichever part of it was met first."""
    text = mender.text
    for at in [k, *reversed(text.around(k))]:
        head = at if text.text(at) == "switch" else None
        if text.text(at) == "{" and text.text(at - 1) == ")":
            head = text.opening(at - 1) - 1
        if head is not None and text.text(head) == "switch" and text.text(head + 1) == "(":
            last = text.closing(text.closing(head + 1) + 1)
            is_value = text.text(head - 1) not in ENDS + (")", "else", "->", ":")
            return mender.without(head, last, "0" if is_value else ";")
    return None


def exceptions(mender, k):
    text = mender.text
    here = text.text(k)
    for at in (k, k - 1):
        if text.text(at) == "throw":
            return mender.without(at, mender.end_of_statement(at) - 1)
    if here == "throws":
        last = k
        while last + 1 < len(text.pieces) and text.text(last + 1) not in ("{", ";"):
            last += 1
        return [text.replace(k, last)]
    if here in ("try", "{") and "try" in (here, text.text(k - 1)):
        k = k if here == "try" else k - 1
        return [text.replace(k, text.closing(k + 1) if text.text(k + 1) == "(" else k)]
    if here == "catch":
        return mender.without(k, text.closing(text.closing(k + 1) + 1))
    return [text.replace(k, k)] if here == "finally" else None


def other_words(mender, k):
    """A do, an assert, an enum, or a word that is only left out."""
    text = mender.text
    for at in (k, k - 1):
        here = text.text(at)
        if here == "do":
            last = text.closing(at + 1) if text.text(at + 1) == "{" else mender.end_of_statement(at)
            if text.text(last + 1) == "while":
                return [text.replace(at, at), text.replace(last + 1, text.closing(last + 2))]
        if here == "assert":
            return mender.without(at, mender.end_of_statement(at) - 1)
        if here == "enum" or here == "record" and text.kind(at + 1) == "word" and text.text(at + 2) == "(":
            mender.lost.add(text.text(at + 1))
            body = next((j for j in range(at, len(text.pieces)) if text.text(j) == "{"), at)
            return mender.without(mender.first_of_statement(at), text.closing(body))
        if here == "synchronized" and text.text(at + 1) == "(":
            return [text.replace(at, text.closing(at + 1))]
        if here in LEFT_OUT:
            return [text.replace(at, at)]
        if here in TYPES and text.kind(at) == "word" and (here != "var" or text.kind(at + 1) == "word"):
            return [text.replace(at, at, TYPES[here])]
    return None


def literals(mender, k):
    """A number, a character or a string that is written in another way."""
    text = mender.text
    for at in (k, k - 1):
        here, kind = text.text(at), text.kind(at)
        if kind == "number" and not re.fullmatch("0|[1-9][0-9]{0,8}", here):
            return [text.replace(at, at, "1")]
        if kind == "char" and not re.fullmatch(r"""'(?:[^'\\]|\\[btnfr"'\\])'""", here):
            return [text.replace(at, at, "'x'")]
        if kind == "string" and not re.fullmatch(r'''"(?:[^"\\]|\\[btnfr"'\\])*"''', here):
            return [text.replace(at, at, '""')]
    return None


def generics(mender, k):
    """Angle brackets round types."""
    text = mender.text
    for at in (k, k - 1, k - 2, k - 3, k - 4):
        if text.text(at) != "<":
            continue
        last = text.angles(at)
        if last is not None and last >= k - 1 and text.text(last + 1) not in ("=",):
            before = text.text(at - 1)
            declares = text.text(at - 2) in ("class", "interface") or before in MODIFIERS or before in ENDS
            if declares:
                mender.lost.update(text.text(j) for j in range(at + 1, last) if text.kind(j) == "word")
            return [text.replace(at, last)]
    return None


def functions(mender, k):
    """A lambda or a method reference: its whole statement goes."""
    text = mender.text
    for at in (k, k + 1, k - 1):
        if text.text(at) in ("->", "::") or text.text(at) == "-" and text.text(at + 1) == ">":
            first = mender.first_of_statement(at)
            last = mender.end_of_statement(first)
            return mender.without(first, last - 1) if last > first else None
    return None


def steps(mender, k):
    """`++` and assignments within expressions, compound assignments of members, other marks before `=`."""
    text = mender.text
    for at in (k, k - 1):
        if text.text(at) in ("++", "--"):
            return [text.replace(at, at)]
    here = text.text(k)
    if len(here) == 2 and here[0] in "+-*/%&|^" and here[1] == "=":
        return [text.replace(k, k, "=")]
    for at in (k, k - 1):
        if re.fullmatch("[<>&|^]", text.text(at)) and text.text(at + 1) in ("=", "<=", ">="):
            first = at
            while text.text(first - 1) in ("<", ">"):
                first -= 1
            return [text.replace(first, at + 1, "=")]
    if here == "=" and "=" in [text.text(j) for j in range(mender.first_of_statement(k), k)]:
        last = k + 1
        while last < len(text.pieces) and text.text(last) not in (";", ",", ")", "=", "}"):
            last = (text.closing(last) if text.text(last) in ("(", "[", "{") else last) + 1
        return [text.replace(k, last - 1)]
    return None


def declarations(mender, k):
    """Several variables in one declaration, brackets behind a name, a number of arguments that varies."""
    text = mender.text
    if text.text(k) == "..." or text.text(k) == "." and text.text(k + 1) == ".":
        last = k + 2 if text.text(k) == "." else k
        return [text.replace(k, last, "[] ")]
    first = mender.first_of_statement(k)
    if text.text(k) == "," and text.around(k) and text.text(text.around(k)[-1]) == "{":
        kind = first
        while text.text(kind) in MODIFIERS:
            kind += 1
        return [text.replace(k, k, f"; {text.text(kind)} ")] if text.kind(kind) == "word" else None
    if text.text(k) == "," and text.text(text.around(k)[-1] - 1 if text.around(k) else -1) == "for":
        last = k
        while text.text(last + 1) not in (";", ")", ""):
            last = text.closing(last + 1) if text.text(last + 1) in ("(", "[", "{") else last + 1
        return mender.without(k, last)
    if text.text(k) == "[" and text.text(k + 1) == "]" and text.kind(k - 1) == "word" and text.kind(k - 2) == "word":
        return [text.replace(k, k + 1), (text.pieces[k - 2].end, text.pieces[k - 2].end, "[]")]
    return None


def arrays(mender, k):
    """The elements of a new array, and a second size."""
    text = mender.text
    for at in (k, k - 1, k + 1):
        if text.text(at) == "{" and text.text(at - 1) in ("=", "]", ",", "{"):
            first = at
            if text.text(at - 1) == "]":
                while first > 0 and text.text(first) != "new":
                    first -= 1
            return [text.replace(first, text.closing(at), "null")]
    at = k if text.text(k) == "[" else k - 1
    if text.text(at) == "[" and text.text(at - 1) == "]" and text.text(at + 1) != "]":
        return [text.replace(at + 1, text.closing(at) - 1)]
    if text.text(k) == "]" and text.text(k - 1) == "[":
        at = k
        while text.text(at + 1) in ("[", "]"):
            at += 1
        if text.text(at + 1) == "{":
            first = k
            while first > 0 and text.text(first) != "new":
                first -= 1
            return [text.replace(first, text.closing(at + 1), "null")]
    return None


def members(mender, k):
    """An initial value of a field, a constructor in an interface or without a body, a block or a class in a class."""
    text = mender.text
    around = text.around(k)
    if len(around) == 1 and text.text(k) == "=":
        return [text.replace(k, mender.end_of_statement(k) - 1)]
    if len(around) == 1 and text.text(k) == "(" and text.kind(k - 1) == "word":
        return [(text.pieces[k - 1].start, text.pieces[k - 1].start, "void ")]
    if len(around) == 1 and text.text(k) == "{" and text.text(k - 1) in ENDS + ("static",):
        return mender.without(k - (text.text(k - 1) == "static"), text.closing(k))
    if len(around) == 1 and text.text(k) == ";":
        return [text.replace(k, k, "{ }" if text.text(k - 1) == ")" else "")]
    for at in (k, k - 1):
        if around and text.text(at) in ("class", "interface") and text.text(at - 1) != ".":
            mender.lost.add(text.text(at + 1))
            body = next((j for j in range(at, len(text.pieces)) if text.text(j) == "{"), at)
            return mender.without(mender.first_of_statement(at), text.closing(body))
    if not around and text.text(k) in (";", "}"):
        return [text.replace(k, k)]
    return None


def others(mender, k):
    """A call of a constructor, the variable of an instanceof, a `;` that is missing."""
    text = mender.text
    first = mender.first_of_statement(k)
    for at in (k, k - 1):
        if text.text(at) in ("this", "super") and text.text(at + 1) == "(" and at == first:
            return mender.without(at, mender.end_of_statement(at) - 1)
    if text.kind(k) == "word" and text.kind(k - 1) == "word" and "instanceof" in (text.text(k - 2), text.text(k - 3)):
        mender.lost.add(text.text(k))
        return [text.replace(k, k)]
    is_behind = k > 0 and k < len(text.pieces) and b"\n" in text.data[text.pieces[k - 1].end : text.pieces[k].start]
    closes = text.text(k) == "}" and text.text(k - 1) not in ENDS
    if (is_behind or closes) and text.text(k - 1) not in ENDS and text.text(k) not in (".", "=", "(", "+"):
        return [(text.pieces[k - 1].end, text.pieces[k - 1].end, ";")]
    return None


RULES = (
    annotation,
    at_top,
    for_each,
    choice,
    switch,
    label,
    exceptions,
    other_words,
    literals,
    functions,
    generics,
    arrays,
    declarations,
    steps,
    members,
    others,
)
