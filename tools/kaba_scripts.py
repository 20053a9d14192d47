"""Scripts of edits and undos: what stands on each line, and why a line is none of them."""
import re
from collections import namedtuple

# Its line and that line's text; merge and so on, or undo; its nodes and columns as ("n", 1), in order; the new name.
Edit = namedtuple("Edit", "line text word numbers name")

FORMS = {
    "merge": "merge n1 n2 ..",
    "under": "under n1 n2",
    "move": "move c1 n2",
    "type": "type n1 NAME",
    "member": "member c1 NAME",
    "drop": "drop n1",
    "undo": "undo",
}
NODE, COLUMN, NAME = r"n(?:0|[1-9][0-9]*)", r"c(?:0|[1-9][0-9]*)", r"[^ ]+"
WORDS = {
    "merge": re.compile(rf"{NODE}(?: +{NODE})+"),
    "under": re.compile(rf"{NODE} +{NODE}"),
    "move": re.compile(rf"{COLUMN} +{NODE}"),
    "type": re.compile(rf"{NODE} +{NAME}"),
    "member": re.compile(rf"{COLUMN} +{NAME}"),
    "drop": re.compile(NODE),
    "undo": re.compile(""),
}
NAMED = ("type", "member")
MOST_NUMBER = 4294967295


def edit_of(line, number):
    """The edit that a line writes, or nothing where it writes none."""
    word, _, rest = line.partition(" ")
    rest = rest.lstrip(" ")
    if line.endswith(" ") or word not in WORDS or not WORDS[word].fullmatch(rest):
        return None
    words = [it for it in rest.split(" ") if it]
    name = words.pop() if word in NAMED else None
    numbers = [(it[0], int(it[1:])) for it in words]
    return Edit(number, line, word, numbers, name) if all(n <= MOST_NUMBER for _, n in numbers) else None


def lines_in(script):
    """The lines of a script's bytes, numbered from 1, with those that say nothing; one that is no UTF-8 is nothing."""
    for number, line in enumerate(script.split(b"\n"), 1):
        try:
            yield number, line.decode()
        except UnicodeDecodeError:
            yield number, None


def says_nothing(line):
    return line == "" or line.startswith("#")


def edits_in(script):
    """The edits of a script by their lines; lines that are none are left out."""
    found = {}
    for number, line in lines_in(script):
        edit = None if line is None or says_nothing(line) else edit_of(line, number)
        if edit:
            found[number] = edit
    return found


def faults_in(script):
    """The lines that are neither an edit nor say nothing, each with why."""
    lines = [(number, line) for number, line in lines_in(script) if line is None or not says_nothing(line)]
    return [(number, fault_of(line)) for number, line in lines if line is None or not edit_of(line, number)]


def fault_in(line):
    """Why the bytes of a line are no edit."""
    return fault_of(next(lines_in(line))[1])


def fault_of(line):
    """Why a line is no edit, and how it is written."""
    if line is None:
        return "this is not UTF-8: save the script as UTF-8"
    if line.startswith("\ufeff"):
        return "the script begins with a byte order mark: save it as UTF-8 without one"
    if line.endswith("\r"):
        return "the line ends as in Windows: end each line with a line feed alone (tr -d '\\r')"
    if "\t" in line:
        return "a tab is a part of a word here: put spaces between the words"
    if line.strip(" ") == "":
        return "the line has spaces alone: leave it empty"
    if line.strip(" ") != line:
        return "a space stands first or last on the line: leave it out"
    if re.search(r" (#|//)", line):
        return "a comment has a line of its own, which begins with #"
    if re.match(r"//|/\*|--|;", line):
        return "a comment begins with #"
    if "," in line:
        return f"words stand between spaces, without commas: {line.replace(', ', ' ').replace(',', ' ').rstrip()}"
    if line.endswith(";"):
        return "no edit ends with `;`: leave it out"
    return fault_of_words(line)


def fault_of_words(line):
    """Why the words of a line are no edit."""
    word, *rest = [it for it in line.split(" ") if it]
    if word not in FORMS:
        if word.lower() in FORMS:
            return f"edits are written in small letters: {FORMS[word.lower()]}"
        return f"no edit is called `{word}`; the edits are {', '.join(FORMS.values())}"
    return fault_of_numbers(word, rest)


def fault_of_numbers(word, rest):
    """Why the words behind the name of an edit do not fit it."""
    form = f"this edit is written {FORMS[word]}"
    kinds = {"under": "nn", "move": "cn", "type": "n", "member": "c", "drop": "n", "undo": ""}
    kinds = kinds.get(word, "n" * max(2, len(rest)))
    for it, kind in zip(rest, kinds):
        what = "node" if kind == "n" else "column"
        if re.fullmatch(r"[0-9]+", it):
            return f"`{it}` is a number without its letter: a {what} is written {kind}{int(it)}; {form}"
        if re.fullmatch(r"[cn][0-9]+", it) and it[0] != kind:
            return f"`{it}` stands where a {what} is wanted; {form}"
        if re.fullmatch(rf"{kind}0[0-9]+", it):
            return f"`{it}` has a leading zero; {form}"
        if re.fullmatch(rf"{kind}[0-9]+", it) and int(it[1:]) > MOST_NUMBER:
            return f"`{it}` is over {MOST_NUMBER}"
        if not re.fullmatch(rf"{kind}[0-9]+", it):
            return f"`{it}` is no {what}, which is written {kind} with its number; {form}"
    wanted = len(kinds) + (word in NAMED)
    if len(rest) != wanted:
        count = "too few" if len(rest) < wanted else "too many"
        more = ", and a name has no spaces" if word in NAMED and len(rest) > wanted else ""
        return f"{count} words: {form}{more}"
    return form
