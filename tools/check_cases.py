"""Tests of the cases' format, of tools/run-cases and of tools/case-files, and that tests/ holds cases alone."""
import collections
import shutil
import subprocess

from cases import TESTS, BadCase, read_case, read_cases
from kaba_tools import HERE

COMMANDS = {"run", "table", "lattice", "base", "why", "sure", "same", "edit", "regen", "make"}

# A case with all that a case may have, and what it stands for.
WHOLE = r"""A title
of two lines

-- words (escaped) --
run 'two words' '' a\xffb
-- p.java --
class A {
-- p.java (3 times) --
  x
-- p.java (2 times, no newline at end, escaped) --
}\x20\x20
-- empty --
-- other (escaped) --
a\tb\\n\r
\x2d- status --
é\xc3\xa9\x00
-- status --
10
-- stdout (begins with, no newline at end) --
square
-- stderr --
kaba: fault
"""
WHOLE_WORDS = [b"run", b"two words", b"", b"a\xffb"]
WHOLE_FILES = {
    "p.java": b"class A {\n  x\n  x\n  x\n}  }  ",
    "empty": b"",
    "other": b"a\tb\\n\r\n-- status --\n\xc3\xa9\xc3\xa9\x00\n",
}

# A text that is no case, the line of what is wrong, and a part of the sentence.
SMALL = "title\n-- words --\nrun\n-- status --\n0\n"
BAD = [
    (b"", 1, "what the case is for"),
    (SMALL[6:].encode(), 1, "what the case is for"),
    (b"title\n-- words --\nrun\n", 2, "no section status"),
    (b"title\n-- status --\n0\n", 2, "no section words"),
    (SMALL.replace("0", "-1").encode(), 2, "no number"),
    (SMALL.replace("run", "'run").encode(), 2, "No closing quotation"),
    (SMALL.encode()[:-1], 5, "no newline at its end"),
    (SMALL.replace("title", "ti\ttle").encode(), 1, "a control character"),
    (SMALL.replace("\n", "\r\n").encode(), 1, "a control character"),
    (SMALL.replace("run", "run ").encode(), 3, "a space at the end"),
    (SMALL.encode() + b"-- stderr --\n\xff\n", 7, "not UTF-8"),
    (SMALL.encode() + b"-- stderr (escaped) --\n\\q\n", 7, "no escape"),
    (SMALL.encode() + b"-- stderr (escaped) --\nx\\x0\n", 7, "no escape"),
    (SMALL.encode() + b"-- stderr (begins with) --\n", 6, "says nothing here"),
    (SMALL.encode() + b"-- stderr (0 times) --\n", 6, "says nothing here"),
    (SMALL.encode() + b"-- stderr (no newline at end) --\n", 6, "an empty section"),
    (SMALL.encode() + b"-- p.java --\n", 6, "is out of order"),
    (SMALL.encode() + b"-- stderr --\n-- stdout --\n", 7, "is out of order"),
    (SMALL.encode() + b"-- stdout --\n-- stdout and stderr --\n", 2, "one of them alone"),
    (SMALL.replace("-- status", "-- a/b --\n-- status").encode(), 4, "no name of a file"),
    (SMALL.replace("-- status", "-- a --\n-- b --\n-- a --\n-- status").encode(), 6, "is out of order"),
]

FAILING = "a case\n\n-- words --\nhalf\n-- status --\n0\n-- stdout --\n1\n2\n3\n4\n5\n-- stderr --\nend\n"
PROGRAM = "#!/bin/sh\nprintf '1\\n2\\n3\\nfour\\n5\\t\\n'\nprintf end >&2\nexit 3\n"
SHOWN = r"""@: kaba half
  status: wanted 0, got 3
  stdout, - wanted, + got, from line 1:
   1
   2
   3
  -4
  -5
  +four
  +5\t
  stderr, - wanted, + got, from line 1:
   end
  +\ no newline at end
0 passed, 1 failed
"""


def check_format(tests):
    case = read_case(tests.path("whole.txt", WHOLE))
    said = (case.title, case.words, case.files, case.status, case.stdout, case.is_front, case.stderr, case.both)
    wanted = ("A title of two lines", WHOLE_WORDS, WHOLE_FILES, 10, b"square", True, b"kaba: fault\n", None)
    tests.check("a case with all that it may have", said == wanted, str(said))
    for text, line, sentence in BAD:
        path = tests.path("bad.txt", text)
        try:
            read_case(path)
            said = "it is taken"
        except BadCase as error:
            said = str(error)
        tests.check(f"no case: {text[:60]!r}", said.startswith(f"{path}:{line}: ") and sentence in said, said)


def check_shown(tests):
    program = tests.path("program", PROGRAM)
    program.chmod(0o755)
    case = tests.path("case.txt", FAILING)
    status, out, err = tests.tool("run-cases", "--program", str(program), str(case))
    tests.check("a failing case", (status, out) == (1, SHOWN.replace("@", f"{case.parent.name}/case")), out + err)
    begins = FAILING.replace("4\n5\n", "four\n").replace("stdout", "stdout (begins with)")
    case.write_text(begins.replace("\n0\n", "\n3\n"))
    status, out, err = tests.tool("run-cases", "--program", str(program), str(case))
    alone = status == 1 and out.count("- wanted") == 1 and "stderr" in out
    tests.check("a case of which the error alone fails", alone, out + err)
    tests.one_line("run-cases of no case", 66, tests.tool("run-cases", "--program", str(program), "nowhere"))
    bad, nothing = str(tests.path("bad.txt", "x")), str(tests.folder / "nothing")
    tests.one_line("run-cases of what is no case", 65, tests.tool("run-cases", "--program", str(program), bad))
    tests.one_line("run-cases without a program", 127, tests.tool("run-cases", "--program", nothing, str(case)))


def check_laid(tests):
    folder = tests.folder / "laid"
    case = next(case for case in read_cases(["regen"]) if case.status == 0 and b"." in case.words[1])
    status, out, err = tests.tool("case-files", case.name, str(folder))
    there = {name: (folder / name).read_bytes() for name in case.files if (folder / name).exists()}
    laid = status == 0 and there == case.files and out.startswith(f"cd {folder}\n")
    tests.check(f"case-files {case.name}", laid, out + err)
    tests.one_line("case-files over files", 73, tests.tool("case-files", case.name, str(folder)))
    tests.one_line("case-files of many", 64, tests.tool("case-files", "regen", str(folder)))
    tests.one_line("case-files of none", 66, tests.tool("case-files", "nowhere", str(folder)))
    if not shutil.which("java"):
        return
    printed = []
    for name in (case.words[1].decode(), "wanted.stdout"):
        done = subprocess.run(["java", "RunJava.java", name, "one"], cwd=folder, capture_output=True)
        printed.append(done.stdout)
        tests.check(f"java RunJava.java {name}", done.returncode == 0, done.stderr.decode(errors="replace"))
    tests.check("Java prints another text for what regen wrote", printed[0] == printed[1] != b"", str(printed))


def is_case(path):
    return path.parent.parent == TESTS and path.suffix == ".txt"


def is_at_home(case):
    """Whether the case stands in the folder of its command."""
    folder, first = case.name.split("/")[0], case.words[0].decode(errors="replace") if case.words else ""
    return folder == "about" or (folder == first if first in COMMANDS else folder == "words")


def check_tests(tests):
    """Each file of tests/ is a case in the folder of its command, and each name and title stands there once."""
    others = [path for path in TESTS.rglob("*") if path.is_file() and not is_case(path)]
    others = [str(path) for path in others if path != TESTS / "README.md"]
    tests.check("these files of tests/ are no cases", not others, "\n".join(others))
    cases = read_cases()
    away = [case.name for case in cases if not is_at_home(case)]
    tests.check("these cases stand in another folder than that of their command", not away, "\n".join(away))
    names, titles = [case.name.lower() for case in cases], [f"{case.path.parent.name}: {case.title}" for case in cases]
    for what, said in (("name", names), ("title", titles)):
        twice = [one for one, count in collections.Counter(said).items() if count > 1]
        tests.check(f"two cases have one {what}", not twice, "\n".join(twice))


def check_cases(tests):
    for part in (check_format, check_shown, check_laid, check_tests):
        part(tests)
