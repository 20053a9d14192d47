"""Tests what the program answers where a file cannot be read, a write fails, and a text ends too early."""
import tempfile
from concurrent.futures import ThreadPoolExecutor
from pathlib import Path

from cases import read_cases
from failing import compiler, library, run_failing
from kaba_tools import PROGRAM, kaba, tokens_of

RUN, EDIT = "run/the-university-run", "edit/refused-edits-and-a-fresh-name"

# The words of each command that reads files, and these files in the order in which it reads them.
READING = [
    ("run p.java 7", ["p.java"]),
    ("table p.java", ["p.java"]),
    ("lattice p.java", ["p.java"]),
    ("lattice -j p.java", ["p.java"]),
    ("edit r.java s", ["r.java", "s"]),
    ("regen r.java s", ["r.java", "s"]),
]

# Names that no type may have, and the instance against B8 that is told of each.
NAMES = ["class", "int", "_"]

# The fronts of the program that end behind a class: what is told where they end before the next one.
BEHIND_CLASSES = ["NoMain", "NoMain", "Unknown Professor line 7", "NoMain"]
# The words of which a beginning cannot stand where they stand: no name may.
FIXED = {"class", "extends"}


def cannot_read(came, file):
    """Whether the answer is that this file cannot be read, in one write."""
    return came[:3] == (66, b"", f"kaba: cannot read {file}\n".encode()) and (came.outs, came.errs) == (0, 1)


def check_fetches(tests, run):
    """The first and the second file of each command cannot be opened, or not be read; or that cannot be written."""
    for words, files in READING:
        for number, file in enumerate(files, 1):
            came = run(words, FAIL_OPEN=number)
            tests.check(f"{words}: open {number} fails", cannot_read(came, file) and came.opens == number, str(came))
            came = run(words, FAIL_READ=2 * number - 1)
            tests.check(f"{words}: {file} is not read", cannot_read(came, file) and came.opens == number, str(came))
            came = run(words, FAIL_OPEN=number, FAIL_WRITE="2:1")
            told = came[:3] == (74, b"", b"") and (came.opens, came.outs, came.errs) == (number, 0, 1)
            tests.check(f"{words}: open {number} and the line of it fail", told, str(came))
    came = run("regen r.java no")
    tests.check("regen r.java no", cannot_read(came, "no") and came.opens == 2, str(came))
    own, came = run("make 2"), run("make 2", FAIL_OPEN=1)
    tests.check("make 2 reads no file", came == own and came.opens == 0 and came.status == 0, str(came))


def check_writes(tests, run, pool, words, descriptor, wanted):
    """Each write of one byte to a descriptor fails in turn, and takes nothing in turn: the call is cut there, and the
    write is not tried again."""
    whole = run(words, MOST_WRITE=1)
    tests.check(f"{words}: one byte a write", whole[:3] == wanted and (whole.outs, whole.errs) == tuple(map(len, wanted[1:])), str(whole))
    numbers = range(1, len(wanted[descriptor]) + 1)
    for how in ("FAIL_WRITE", "ZERO_WRITE"):
        cut = list(pool.map(lambda number: run(words, MOST_WRITE=1, **{how: f"{descriptor}:{number}"}), numbers))
        for number, came in zip(numbers, cut):
            out, err = (wanted[1][: number - 1], b"") if descriptor == 1 else (wanted[1], wanted[2][: number - 1])
            counts = (number, 0) if descriptor == 1 else (whole.outs, number)
            is_cut = came[:3] == (74, out, err) and (came.outs, came.errs) == counts
            tests.check(f"{words}: {how} {descriptor}:{number}", is_cut, str(came))


def check_single_writes(tests, run):
    """A write that fails behind two of ten bytes, and a first one that takes nothing."""
    came = run("run p.java 7", MOST_WRITE=10, FAIL_WRITE="1:3")
    is_cut = came[:3] == (74, b"Carl Main Street\nGre", b"") and (came.outs, came.errs) == (3, 0)
    tests.check("run p.java 7: ten bytes a write, and the third fails", is_cut, str(came))
    came = run("run p.java 7", ZERO_WRITE="1:1")
    is_cut = came[:3] == (74, b"", b"") and (came.outs, came.errs) == (1, 0)
    tests.check("run p.java 7: the first write takes nothing", is_cut, str(came))


def front_refused(whole, length):
    """What is told of the first bytes of a program that ends with its last brace."""
    front = whole[:length]
    tokens, places = tokens_of(front), tokens_of(whole)
    line = front[:-1].count(b"\n") + 1
    rest = front[tokens[-1].at + len(tokens[-1].text.encode()) :] if tokens else front
    if b'"' in rest:
        at = length - len(rest) + rest.index(b'"')
        return f"OpenString at {at} line {line}"
    depth = sum({"{": 1, "}": -1}.get(token.text, 0) for token in tokens)
    if depth == 0 and (not tokens or tokens[-1].text == "}"):
        return BEHIND_CLASSES[sum(token.text == "class" for token in tokens)]
    stands = places[len(tokens) - 1].text
    last = len(tokens) - (stands in FIXED and tokens[-1].text != stands)
    return f"NotAProgram at token {last} line {line}"


def check_fronts(tests, pool, folder, whole):
    """Each front of a program that ends before its last brace is refused with the first token that cannot stand."""

    def told(length):
        file = Path(folder, f"{length}.java")
        file.write_bytes(whole[:length])
        return kaba("run", str(file), "7")

    lengths = range(whole.rindex(b"}") + 1)
    for length, (status, out, said) in zip(lengths, pool.map(told, lengths)):
        wanted = f"kaba: refused: {front_refused(whole, length)}"
        tests.check(f"the first {length} bytes", (status, out, said) == (65, b"", wanted), f"{status}: {said}; wanted {wanted}")


def check_names(tests, run):
    """A type is not called by a keyword or by a lone underscore: the hierarchy stays as it is."""
    came, own = run("edit r.java names"), run("edit r.java none")
    lines = "".join(f"edit {number}: breaks B8 nodes n1 row - column -\n" for number in range(1, len(NAMES) + 1))
    kept = own.out and came[:3] == (4, own.out, lines.encode())
    tests.check("types with names that they may not have", kept and own.status == 0, str(came))


def check_failures(tests):
    """What fails, and is told."""
    run_case, edit_case = read_cases([RUN, EDIT])
    files = {"p.java": run_case.files["p.java"], "r.java": edit_case.files["p.java"], "s": edit_case.files["s"], "none": b""}
    files["names"] = "".join(f"type n1 {name}\n" for name in NAMES).encode()
    with tempfile.TemporaryDirectory() as folder, ThreadPoolExecutor() as pool:
        check_fronts(tests, pool, folder, files["p.java"])
        if not compiler():
            print("left out: what fails, since cc is not there")
            return
        made = library(folder)
        for name, data in files.items():
            Path(folder, name).write_bytes(data)

        def run(words, **chosen):
            return run_failing(made, PROGRAM, words.split(), folder, **chosen)

        if not run("--version").memory:
            print("left out: what fails, since the program is not linked with the C library when it is run")
            return
        check_fetches(tests, run)
        check_writes(tests, run, pool, "run p.java 7", 1, (0, run_case.stdout, run_case.stderr))
        check_writes(tests, run, pool, "edit r.java s", 2, (4, edit_case.stdout, edit_case.stderr))
        check_single_writes(tests, run)
        check_names(tests, run)
