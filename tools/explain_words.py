"""The sentences of tools/explain: what stands at the place of a refusal, and what to write instead."""
import re

import explain_makers as makers
from explain_tokens import Pieces

KEYWORDS = {
    "package": "a program is one file without a package: leave the line out",
    "import": "a program is one file, and the Java library is not there: leave the line out",
    "switch": "there is no switch: write if (..) {..} else if (..) {..}",
    "case": "there is no switch: write if (..) {..} else if (..) {..}",
    "default": "there is no switch, and no default method: write an if, or give the method a body in each class",
    "do": "there is no do: write a while, with what must be done first before it",
    "try": "there are no exceptions: test before what would fail, and give an answer that says so",
    "catch": "there are no exceptions: test before what would fail, and give an answer that says so",
    "finally": "there are no exceptions: write what must be done at the end behind it",
    "throw": "there are no exceptions: give an answer that says so, such as null, -1 or false",
    "throws": "there are no exceptions: leave it out",
    "enum": "there are no enums: write a class with a static method for each number, or int numbers",
    "long": "the one number type is int",
    "short": "the one number type is int",
    "byte": "the one number type is int",
    "float": "there are no fractional numbers: count in int, such as cents",
    "double": "there are no fractional numbers: count in int, such as cents",
    "synchronized": "there are no threads: leave it out",
    "volatile": "there are no threads: leave it out",
    "transient": "leave it out",
    "native": "every method is written in the file",
    "strictfp": "there are no fractional numbers: leave it out",
    "assert": "there is no assert: write an if",
}

LEXICAL = {
    "OpenString": "the string is not closed on its line",
    "OpenComment": "the comment is never closed",
    "BigLiteral": "the greatest number is 2147483647, and the one number type is int",
}
TOO_DEEP = "brackets, operators, ifs and loops are nested more than 128 deep: put the inner part into a method"
ESCAPE = r"""the escapes are \b \t \n \f \r \" \' \\; write (char) N for the character of number N"""
STEP = "`++` and `--` stand only before or behind a simple variable, as a statement or as a for's third part: write a line of its own, such as i = i + 1;"
COMPOUND = "a compound assignment takes a simple variable: write it out, such as x.f = x.f + 1;"
LAMBDA = "there are no lambdas: write a class with a method, and give it an object of that class"
FRACTION = "there are no fractional numbers: count in int, such as cents"
GENERIC = "there are no generics: write a class for the one type, or take Object and cast"
FOREACH = "`:` after the head of a for: for-each is not in the language; write an index, such as for (int i = 0; i < a.length; i++)"
CHOICE = "`? :` is not in the language: write if (..) {..} else {..}"
INITIAL = "a field has no initial value in its declaration: set it in main, or in a method that is called first (a constant can be a static method)"
ARRAY = "there are no array initialisers: write new T[N] and store each element by its index"


def at_byte(source, at):
    """The sentence for a byte that begins no token."""
    if is_fraction(Pieces(source.data), at):
        return FRACTION
    line, column = source.place(at)
    text, here = source.line(line), column - 1
    if source.data[at : at + 1].isascii() is False and "\ufffd" in text[here : here + 1]:
        return "this is not UTF-8: save the file as UTF-8"
    c, front = text[here : here + 1], text[:here].rstrip()
    if c == ":":
        return at_colon(text, here, front)
    if c == "?":
        return GENERIC if front.endswith("<") else CHOICE
    if c == "@":
        return "there are no annotations: leave it out"
    if c == "'":
        return at_quote(text[here:])
    if c == "\\":
        return ESCAPE
    return behind_number(text, here) or f"no token begins with `{c}`"


def at_colon(text, here, front):
    if text[here : here + 2] == "::":
        return "there are no method references: write a class with a method"
    if re.search(r"\bfor\s*\([^;]*$", front):
        return FOREACH
    if re.search(r"(?:^|[\s{;])(?:case\b[^:]*|default\s*)$", front):
        return KEYWORDS["switch"]
    return CHOICE if "?" in front else "there are no labels: put the loops into a method that returns"


def at_quote(rest):
    if re.match(r"''", rest):
        return "a character literal has one character"
    if rest.startswith("'\\"):
        return ESCAPE
    return "a character literal has one character: a text stands in double quotes" if "'" in rest[1:] else "the character literal is not closed"


def behind_number(text, here):
    """The sentence where a number stands directly before."""
    front = re.search(r"(?<![\w$])[0-9]+$", text[:here])
    whole = front and re.match(r"[0-9][\w.]*", text[front.start() :])[0]
    if not whole:
        return None
    plain = whole.replace("_", "")
    if plain[-1] in "lL" and plain[:-1].isdecimal():
        return "the one number type is int: leave the letter out"
    for base, form in ((16, r"0[xX][0-9a-fA-F]+$"), (2, r"0[bB][01]+$"), (8, r"0[0-7]+$"), (10, r"[1-9][0-9]*$|0$")):
        if re.match(form, plain):
            return f"numbers are decimal, without a leading zero or _: write {int(plain, base)}"
    return FRACTION if plain[-1] in "fFdD" else "a letter or digit stands directly behind a number"


class Spot:
    """The first token that cannot stand where it does, and what stands round it."""

    def __init__(self, source, k):
        self.source, self.tokens, self.k = source, source.tokens, k
        self.open = []  # the tokens of the brackets that are open before k
        for number, token in enumerate(self.tokens[:k]):
            if token.text in ("(", "[", "{") and token.kind == "mark":
                self.open.append(number)
            elif token.text in (")", "]", "}") and token.kind == "mark" and self.open:
                self.open.pop()

    def text(self, ahead=0):
        k = self.k + ahead
        return self.tokens[k].text if 0 <= k < len(self.tokens) else ""

    def is_name(self, ahead=0):
        k = self.k + ahead
        return 0 <= k < len(self.tokens) and self.tokens[k].kind == "word" and self.text(ahead) not in KEYWORDS

    def in_class(self):
        return len(self.open) == 1

    def in_round(self, word):
        """Whether the innermost open bracket is the round one behind this word."""
        return bool(self.open) and self.tokens[self.open[-1]].text == "(" and self.tokens[self.open[-1] - 1].text == word

    def statement(self):
        """The texts from the statement's first token to here."""
        first = self.k
        while first > 0 and self.tokens[first - 1].text not in (";", "{", "}"):
            first -= 1
        return [token.text for token in self.tokens[first : self.k]]


def is_fraction(pieces, at):
    """Whether a number with a fraction or an exponent stands at a place or right before it."""
    k = pieces.at(at)
    numbers = [pieces.text(j) for j in (k, k - 1) if pieces.kind(j) == "number"]
    return any(re.fullmatch(r"(?!0[xX]).*(?:\.|[0-9][eE][-+0-9]).*", number) for number in numbers)


def is_lambda(pieces, at):
    """Whether a lambda begins at a place, or the place stands in its parameters."""
    k = pieces.at(at)
    ends = [pieces.closing(j) for j in pieces.around(k)[-1:] if pieces.text(j) == "("]
    return any(pieces.text(j + 1) == "->" for j in (k, k - 1, *ends)) or "->" in (pieces.text(k), pieces.text(k - 1))


def is_generic(pieces, at):
    """Whether types in angle brackets stand at a place."""
    k = pieces.at(at)
    for j in (k, k - 1):
        before = pieces.kind(j - 1) == "word" or pieces.text(j - 1) in (".", "::", "{", ";", "}")
        if pieces.text(j) == "<" and before and pieces.angles(j) is not None:
            behind = pieces.angles(j) + 1
            return pieces.kind(behind) == "word" or pieces.text(behind) in ("(", "[", ">", ",", "{", "::", ".", ")", "&")
    return False


def at_form(source, at):
    """The sentence for a form of Java that is known by what stands round a place, or nothing."""
    pieces = Pieces(source.data)
    if is_fraction(pieces, at):
        return FRACTION
    if is_lambda(pieces, at):
        return LAMBDA
    return GENERIC if is_generic(pieces, at) else None


def at_token(source, k):
    """The token to show, and the sentence."""
    spot = Spot(source, k)
    if k >= len(source.tokens):
        return at_end(spot)
    form = at_form(source, source.tokens[k].at)
    if form:
        return k, form
    for ahead in (0, -1):
        if spot.text(ahead) in KEYWORDS and source.tokens[k + ahead].kind == "word":
            return k + ahead, f"`{spot.text(ahead)}`: {KEYWORDS[spot.text(ahead)]}"
    found = in_class(spot) if spot.in_class() else at_top(spot) if not spot.open else in_body(spot)
    if found:
        return k, found
    if k > 0 and source.line_of(source.tokens[k]) > source.line_of(source.tokens[k - 1]) and spot.text(-1) not in (";", "{", "}"):
        return k - 1, f"a `;` seems to be missing behind `{spot.text(-1)}`"
    return k, f"no program goes on with `{spot.text()}` here"


def at_end(spot):
    if not spot.tokens:
        return None, "the text has no class"
    if spot.open:
        k = spot.open[-1]
        return k, f"the text ends, and this `{spot.tokens[k].text}` is open: its closing bracket, or one within it, is missing"
    return len(spot.tokens) - 1, "the text ends too early behind this"


def at_top(spot):
    if spot.text() == ";":
        return "no `;` stands behind a class: leave it out"
    if spot.text() == "}":
        return "this `}` closes nothing: one before it is too many"
    if spot.text() == "<":
        return GENERIC
    return "outside of classes and interfaces nothing stands"


def in_class(spot):
    text, before = spot.text(), spot.text(-1)
    if text == "=":
        return INITIAL
    if text == "," and spot.is_name(-1):
        return "one field a declaration: write a line for each"
    if text == "[" and spot.is_name(-1):
        return "the brackets stand behind the type: int[] a"
    if text == "<" or before == "<" or text == ">":
        return GENERIC
    found = makers.in_class(spot)
    if found:
        return found
    if text in ("class", "interface") or before in ("class", "interface"):
        return "there are no classes within classes: declare it beside the others (or a `}` is missing before it)"
    if text == "{":
        return "there are no blocks outside of methods: write a static method that main calls first"
    if text == ";":
        return "no `;` stands alone between members: leave it out"
    return None


def second_assignment(said):
    """The sentence for a `=` behind these texts of its statement."""
    sentence = "an assignment is a statement of its own, with a variable, a field or an element on its left"
    if said.count("=") == 1:
        first, second = "".join(said[: said.index("=")]), "".join(said[said.index("=") + 1 :])
        if re.fullmatch(r"[\w$.\[\]]+", second) and not second[0].isdigit():
            name = " ".join(said[: said.index("=")]) if re.fullmatch(r"\w+", said[0] + first) else first
            return f"{sentence}: write {second} = ..; {name} = {second};"
    return sentence


def in_body(spot):
    text, before, after = spot.text(), spot.text(-1), spot.text(1)
    said = spot.statement()
    if text == "else":
        return "no if stands directly before this else"
    if text == "2147483648":
        return "this number stands only directly behind a minus"
    if text in ("++", "--") or before in ("++", "--"):
        return STEP
    if text in ("+=", "-=", "*=", "/=", "%="):
        return COMPOUND
    for mark, equals in ((text, after), (before, text)):
        if mark in ("&", "|", "^", "<<", ">>", ">>>") and equals == "=":
            return f"`{mark}=` is not in the language: write x = x {mark} ..;, and for booleans && and ||"
    if text == "=":
        return second_assignment(said)
    if text == "{" or before == "{" and "=" in said:
        return ARRAY if before in ("=", "]") else "no block stands here: there are no classes within expressions, and no array initialisers"
    if text == "," and spot.tokens[spot.open[-1]].text == "{" or text == "," and spot.in_round("for"):
        return "one variable a declaration, and one part between the `;` of a for: write a line for each"
    if "new" in said and (text == "[" or before == "[" and spot.text(-2) == "]"):
        return "a new array has one size: write new T[N][] and create each part; to index a new array put it in round brackets"
    if text == "[":
        return "the brackets stand behind the type: int[] a"
    if text == "]" and before == "[":
        return ARRAY if "new" in said else None
    found = makers.in_body(spot)
    if found:
        return found
    if text == "." and (before == "." or after == "."):
        return "there are no variable numbers of arguments: take an array"
    if spot.is_name() and spot.is_name(-1) and "instanceof" in said:
        return "an instanceof gives no variable: write a cast in the next line"
    if text == "class":
        return "there are no classes within methods: declare it beside the others"
    behind_literal = spot.tokens[spot.k].kind == "mark" and spot.tokens[spot.k - 1].kind in ("number", "string", "char")
    if "=" not in said and (text == ";" and before != ")" or behind_literal):
        return "an expression is no statement: only assignments, calls and creations are"
    return None


NAMES = {
    "Unknown": "`{name}` is declared nowhere that can be seen from here",
    "Twice": "`{name}` is declared twice: a local may not have the name of one in whose scope it stands, "
    "nor a class two fields or two methods of one name (there is no overloading)",
    "Loop": "`{name}` is its own ancestor",
    "Overload": "`{name}` has another parameter list, result or kind here than in a class above or below: "
    "there is no overloading; give it another name",
    "TwoKinds": "`{name}` is the name of a class where a variable is meant, or a class where an interface is, or the reverse",
    "PrivateReused": "`{name}` is the name of a private method of an ancestor or a descendant: give it another name",
}

LIBRARY = "the Java library is not there but for Object, String (length, charAt, equals, +) and System.out.print and println"
FORMS = {
    "Modifier": "a modifier stands twice, or does not fit here",
    "Body": "a method of a class has a body exactly where it is not abstract, and a class with an abstract method is abstract",
    "ThisInStatic": "a static method has no this: create an object, or make the member static",
    "BreakOutside": "break and continue stand only inside a loop",
}


def class_at(source, at):
    """The name of the class in which a place is, or nothing."""
    found, depth = None, 0
    for k, token in enumerate(source.tokens):
        if token.at >= at:
            break
        depth += (token.text == "{") - (token.text == "}")
        if depth == 0 and token.text in ("class", "interface") and k + 1 < len(source.tokens):
            found = source.tokens[k + 1].text
    return found


def of_name(source, kind, name, at):
    """The sentence for a condition on names that holds at a place."""
    holder = class_at(source, at)
    found = makers.of_name(source, kind, name, at, holder)
    if found:
        return found
    if kind == "Overload" and re.fullmatch("init[A-Z]*", name) and holder:
        return f"`{name}` has other parameters in a class above or below: call it {name}{holder} here, with its class"
    if kind == "Unknown" and name == "System":
        return "System stands only in System.out.println(..) and System.out.print(..), with at most one value"
    if kind == "Unknown" and name == "String":
        return "String stands only as the type of a variable, parameter, field, result or element; for the text of a number or boolean write \"\" + n"
    if kind == "Unknown" and name == "var":
        return "a local has its type before it: there is no var"
    if kind == "Unknown" and name[:1].isupper():
        return NAMES[kind].format(name=name) + ": " + LIBRARY
    if kind == "Unknown":
        return NAMES[kind].format(name=name) + "; a static member of an ancestor is written with its class before it"
    return NAMES[kind].format(name=name)


def of_rule(source, rule, at):
    """The sentence for a rule of types, or a form, that fails at a place."""
    return makers.of_rule(source, rule, at) or (FORMS[rule] if rule in FORMS else RULES[rule])


RULES = {
    "Assign": "the value does not fit what it is stored into; an int becomes a char, and an object one of a class below, by a cast",
    "Arguments": "the arguments do not fit the parameters in number or type",
    "Operand": "an operand has a type that the operator does not take: there are int, char and boolean, and + joins a String with them or a String; "
    "print takes these four",
    "Condition": "the test is not boolean",
    "Cast": "the class of the cast or instanceof is neither above nor below the type of the value",
    "NoMember": "the type has no such member; an array has length, and a String length(), charAt(int) and equals(String)",
    "Return": "a void method returns nothing, any other a value that fits its result",
    "AbstractNew": "an interface or an abstract class is not created",
    "MissingBody": "a class that is not abstract has or inherits a body for each method; so does what super calls",
    "NotPublic": "a method of an interface is public in the class that has its body",
}

FAULTS = {
    "Null": "a member, an element or the length of null was asked for",
    "Bounds": "a place that the array or string does not have",
    "NegativeSize": "a new array with a size below 0",
    "ArrayStore": "an object was stored into an array of another class",
    "ClassCast": "an object was cast to a class that it does not have",
    "DivZero": "a division or remainder by 0",
    "TooLong": "a string of more than 2147483647 units",
}
