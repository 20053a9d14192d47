"""What the tools on the crates' .antt files share: the lemmas and definitions of a file, and what it imports."""
import re
from collections import namedtuple

# What a file says under one name: whether it is compared by its body, the lines of its type and of its body, and the
# parameters of the modules around it.
Item = namedtuple("Item", "name line defines type body modules")

DEFINING = {"abbrev", "unfoldable", "data", "record"}
ITEM = re.compile(r"(?P<words>(?:(?:pub|abbrev|unfoldable) )*)(?P<name>[^\s(){}.,;]+) (?P<rest>:( .*)?)$")
WHOLE = re.compile(r"(?P<words>(?:pub )?(?:data|record)) (?P<name>[^\s(){}.,;]+)(?P<rest> .*)$")
MODULE = re.compile(r"(?:pub )?module\s+\S+(?P<rest>.*)$")
IMPORT = re.compile(r"(?:pub )?use\s+(?P<path>\S+?)(?:\.\{(?P<names>.*)\}|\s+as\s+(?P<name>\S+))?$")


def indent_of(line):
    return len(line) - len(line.lstrip())


def rest_of(lines, at, inset):
    """The number of the first line from a place that is empty, or no further in than this."""
    while at < len(lines) and lines[at] and indent_of(lines[at]) > inset:
        at += 1
    return at


def lines_of(path):
    return [re.sub(r"(^|\s)--(\s.*)?$", "", line).rstrip() for line in path.read_text().split("\n")]


def imports_of(lines):
    """For each name that a file imports where it comes from; what is of the standard library keeps its name."""
    found = {}
    for match in filter(None, map(IMPORT.match, lines)):
        path, names = match["path"], match["names"].split(",") if match["names"] else [match["name"] or match["path"].split(".")[-1]]
        for name in names:
            given, _, known = name.strip().partition(" as ")
            home = "" if path.startswith(("Rattle.std.", "Rattle.core.")) or not path.startswith("Rattle.") else path
            found[known or given] = f"{home}.{given}" if match["names"] else home or given
    return found


def items_of(lines):
    """The lemmas and definitions of a file."""
    modules, abbreviated, at = [], -1, 0
    while at < len(lines):
        inset, text = indent_of(lines[at]), lines[at].strip()
        if text:
            modules = [(deep, given) for deep, given in modules if deep < inset]
            abbreviated = abbreviated if inset > abbreviated else -1
        if text == "abbrev mutual":
            abbreviated = inset
        if not text or text in ("mutual", "abbrev mutual") or text.startswith(("use ", "pub use ", "mod ", "pub mod ")):
            at += 1
            continue
        item, module = ITEM.match(text) or WHOLE.match(text), MODULE.match(text)
        if module:
            ends = at
            while not lines[ends].endswith("where") and lines[ends + 1 : ends + 2] not in ([], [""]):
                ends += 1
            modules.append((inset, " ".join([module["rest"]] + lines[at + 1 : ends + 1]).replace(" where", " ")))
            at = ends + 1
            continue
        ends = rest_of(lines, at + 1, inset)
        if item:
            body = ends
            while body < len(lines) and lines[body] and indent_of(lines[body]) == inset and not ITEM.match(lines[body].strip()):
                body = rest_of(lines, body + 1, inset)
            text = " ".join([item["rest"]] + [line.strip() for line in lines[at + 1 : ends]])
            defines = bool(DEFINING & set(item["words"].split())) or abbreviated >= 0 or len(text.split()) == 2
            yield Item(item["name"], at + 1, defines, text, lines[ends:body], [parameters for _, parameters in modules])
            ends = body
        at = ends
