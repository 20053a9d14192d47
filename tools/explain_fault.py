"""A refusal of the program as values: its place in the text, and what to say of it."""
import re
from collections import namedtuple

import explain_words as words

# at: the place of its byte, or none; exact: whether the column is known; kind, sentence: what is said; name: of what.
Fault = namedtuple("Fault", "at exact kind sentence name")


def lexical(source, kind, at):
    if kind == "BadByte":
        sentence = words.at_byte(source, at)
    elif kind == "OpenString" and source.data[max(at - 2, 0) : at + 1] == b'"""':
        sentence = 'there are no text blocks: join the lines with + and "\\n"'
    else:
        sentence = words.LEXICAL[kind]
    return Fault(at, True, kind, sentence, None)


def syntactic(source, kind, k):
    if kind == "TooDeep":
        return Fault(source.tokens[k].at, True, kind, words.TOO_DEEP, None)
    k, sentence = words.at_token(source, k)
    return Fault(None if k is None else source.tokens[k].at, True, kind, sentence, None)


def place_on_line(source, why, ask):
    """The place of a fault of which the program tells the line.

    The program is asked once more, of the text with each token of that line on a line of its own.
    """
    line = int(re.search(r"line (\d+)$", why)[1])
    tokens = [source.tokens[k] for k in source.on_line(line)]
    data, end = b"", 0
    for token in tokens:
        data += source.data[end : token.at] + b"\n"
        end = token.at
    told = ask(data + source.data[end:]) or ""
    found = re.fullmatch(re.escape(why[: why.rindex(" ") + 1]) + r"(\d+)", told)
    number = int(found[1]) - line - 1 if found else -1
    if not 0 <= number < len(tokens):
        return source.starts[line - 1], False
    # A local has the place of its name: what is stored into it stands behind the `=`.
    number += why.startswith("IllTyped Assign") and [token.text for token in tokens[number + 1 : number + 2]] == ["="]
    return tokens[number].at, True


def fault_of(source, why, ask):
    """What the program says behind `refused: `, as a fault; `ask` gives what it says of another text."""
    found = re.fullmatch(r"(\w+) at (\d+) line \d+", why)
    if found:
        return lexical(source, found[1], int(found[2]))
    found = re.fullmatch(r"(\w+) at token (\d+) line \d+", why)
    if found:
        return syntactic(source, found[1], int(found[2]))
    found = re.fullmatch(r"(\w+) (\S+) line \d+", why)
    if not found:
        sentence = "a class has static void main(String[] args), which may be public"
        return Fault(None, False, why, sentence, None)
    kind, name = found[1], found[2]
    at, exact = place_on_line(source, why, ask)
    if kind in ("IllTyped", "NotInProfile"):
        return Fault(at, exact, f"{kind} {name}", words.of_rule(source, name, at), None)
    return Fault(at, exact, kind, words.of_name(source, kind, name, at), name)
