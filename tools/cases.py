"""The cases of tests/: a file for each, with its words, its files and the answer that is wanted (tests/README.md)."""
import re
import shlex
from collections import namedtuple
from pathlib import Path

from kaba_tools import HERE, fail

TESTS = HERE / "tests"

HEADER = re.compile(r"-- (.+?)(?: \(([^()]*)\))? --")
ESCAPE = re.compile(r"\\(\\|t|r|n|x[0-9A-Fa-f]{2}|.|$)")
CONTROL = re.compile(r"[\x00-\x09\x0b-\x1f\x7f]")
TIMES = re.compile(r"([1-9][0-9]*) times")
ESCAPED, OPEN, FRONT = "escaped", "no newline at end", "begins with"
BOTH = "stdout and stderr"
ORDER = {"words": 0, "status": 2, "stdout": 3, BOTH: 3, "stderr": 4}  # a file has 1

Case = namedtuple("Case", "name path title words files status stdout stderr both is_front")
Section = namedtuple("Section", "name flags times lines at")  # at: the number of its header's line


class BadCase(Exception):
    """A file that is no case: its path, the line, and what is wrong there."""

    def __init__(self, path, line, message):
        super().__init__(f"{path}:{line}: {message}")


def as_bytes(text):
    """The bytes of a text in which a lone surrogate stands for a byte that is not UTF-8."""
    return text.encode("utf-8", "surrogateescape")


def lines_of(path):
    """The lines of a case's file, all of which can be seen and kept by an editor."""
    try:
        text = path.read_bytes().decode("utf-8")
    except OSError as error:
        fail(f"cannot read {path}: {error.strerror}", 66)
    except UnicodeDecodeError as error:
        line = error.object.count(b"\n", 0, error.start) + 1
        raise BadCase(path, line, "a byte that is not UTF-8: write it escaped") from None
    lines = text.split("\n")
    if lines.pop():
        raise BadCase(path, len(lines) + 1, "the file has no newline at its end")
    for number, line in enumerate(lines, 1):
        if CONTROL.search(line):
            raise BadCase(path, number, "a control character: write it escaped")
        if line.endswith(" "):
            raise BadCase(path, number, "a space at the end of the line: write it escaped, as \\x20")
    return lines


def sections_of(path, lines):
    """The lines before the first section, and the sections."""
    title, found = [], []
    for number, line in enumerate(lines, 1):
        header = HEADER.fullmatch(line)
        if not header:
            (found[-1].lines if found else title).append(line)
            continue
        flags, times = set(), 1
        for flag in header[2].split(", ") if header[2] else []:
            counted = TIMES.fullmatch(flag)
            if counted:
                times = int(counted[1])
            elif flag in (ESCAPED, OPEN, FRONT) and (flag != FRONT or header[1] == "stdout"):
                flags.add(flag)
            else:
                raise BadCase(path, number, f"({flag}) says nothing here")
        found.append(Section(header[1], flags, times, [], number))
    return title, found


def unescaped(path, number, line):
    """A line in which each escape stands for its byte."""

    def byte(found):
        what = found[1]
        if what[:1] == "x" and len(what) == 3:
            return bytes([int(what[1:], 16)]).decode("utf-8", "surrogateescape")
        if what not in ("\\", "t", "r", "n"):
            raise BadCase(path, number, f"\\{what} is no escape")
        return {"\\": "\\", "t": "\t", "r": "\r", "n": "\n"}[what]

    return ESCAPE.sub(byte, line)


def text_of(path, section):
    """What a section stands for."""
    lines = section.lines
    if ESCAPED in section.flags:
        lines = [unescaped(path, number, line) for number, line in enumerate(lines, section.at + 1)]
    text = "".join(line + "\n" for line in lines)
    if OPEN in section.flags:
        if not text:
            raise BadCase(path, section.at, "an empty section has no newline at its end")
        text = text[:-1]
    return text * section.times


def texts_of(path, sections):
    """The text of each name: sections of one name that follow each other are the parts of one text."""
    texts, last, rank = {}, None, 0
    for section in sections:
        now = ORDER.get(section.name, 1)
        if now < rank or (section.name in texts and section.name != last):
            raise BadCase(path, section.at, f"{section.name} is out of order: words, files, status, stdout, stderr")
        if now == 1 and ("/" in section.name or section.name in (".", "..")):
            raise BadCase(path, section.at, f"{section.name} is no name of a file")
        texts[section.name] = texts.get(section.name, "") + text_of(path, section)
        last, rank = section.name, now
    return texts


def read_case(path):
    """The case of a file."""
    title, sections = sections_of(path, lines_of(path))
    said = " ".join(line for line in title if line)
    if not said:
        raise BadCase(path, 1, "no line says what the case is for")
    texts = texts_of(path, sections)
    for name in ("words", "status"):
        if name not in texts:
            raise BadCase(path, len(title) + 1, f"there is no section {name}")
    if BOTH in texts and ("stdout" in texts or "stderr" in texts):
        raise BadCase(path, len(title) + 1, f"there is {BOTH}, and one of them alone")
    if not re.fullmatch("(0|[1-9][0-9]{0,2})\n", texts["status"]):
        raise BadCase(path, len(title) + 1, "the status is no number")
    try:
        words = shlex.split(texts["words"])
    except ValueError as error:
        raise BadCase(path, len(title) + 1, f"words: {error}") from None
    files = {name: as_bytes(text) for name, text in texts.items() if name not in ORDER}
    both = as_bytes(texts[BOTH]) if BOTH in texts else None
    is_front = any(FRONT in section.flags for section in sections)
    status, out, err = int(texts["status"]), as_bytes(texts.get("stdout", "")), as_bytes(texts.get("stderr", ""))
    return Case(name_of(path), path, said, [as_bytes(word) for word in words], files, status, out, err, both, is_front)


def name_of(path):
    """COMMAND/NAME of a case's file."""
    return f"{path.resolve().parent.name}/{path.stem}"


def paths_of(names):
    """The files that are named: each a file, a folder, a COMMAND or a COMMAND/NAME; all where none is."""
    paths = []
    for name in names or [str(TESTS)]:
        places = [Path(name), TESTS / name, TESTS / f"{name}.txt"]
        place = next((place for place in places if place.exists()), None)
        if place is None:
            fail(f"there is no case {name}", 66)
        paths += sorted(place.glob("**/*.txt")) if place.is_dir() else [place]
    return paths


def read_cases(names=()):
    """The cases of all files that are named; ends the tool where one is no case."""
    cases = []
    try:
        for path in paths_of(names):
            cases.append(read_case(path))
    except BadCase as error:
        fail(str(error), 65)
    return cases
