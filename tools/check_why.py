"""Tests of `kaba why` on each entry of the tables of examples/, and of tools/report --why."""
import re

from kaba_tools import HERE, kaba

ROW = re.compile(r"r(\d+) .*: (-|c\d+(?: c\d+)*)")
STEP = re.compile(r"s(\d+) (r\d+ c\d+|(?:point|cell) \d+ site \d+) by [PT]\d+((?: s\d+)*)")


def entries_of(table):
    """The rows and the columns that each has, of the text of a table."""
    for found in ROW.finditer(table):
        yield int(found[1]), [int(word[1:]) for word in found[2].split() if word != "-"]


def is_trail(text, row, column):
    """Whether the lines are those of a trail to the entry: steps with their numbers, the entry last, no claim twice, and each other step named later."""
    head, *lines = text.splitlines()
    steps = [STEP.fullmatch(line) for line in lines]
    if head != f"proof {len(lines)}" or not all(steps) or [int(step[1]) for step in steps] != list(range(len(steps))):
        return False
    named = [[int(word[1:]) for word in step[3].split()] for step in steps]
    claims = [step[2] for step in steps]
    later = {k for names in named for k in names}
    earlier = all(j < k for k, names in enumerate(named) for j in names)
    return claims[-1] == f"r{row} c{column}" and len(set(claims)) == len(claims) and earlier and later == set(range(len(steps) - 1))


def check_trails(tests, most=40):
    """Each entry of a small table has a trail, and what is no entry has none; of a large table the first rows and the last."""
    for path in sorted((HERE / "examples").glob("*.java")):
        status, out, err = kaba("table", str(path))
        if status:
            continue
        rows = list(entries_of(out.decode()))
        width = out.decode().count("\nc")
        for row, columns in rows[: most // 2] + rows[max(len(rows) - most // 2, most // 2) :]:
            for column in columns:
                status, shown, err = kaba("why", str(path), f"r{row}", f"c{column}")
                tests.check(f"{path.name}: r{row} c{column} has no trail", status == 0 and is_trail(shown.decode(), row, column), err + shown.decode())
            absent = next((c for c in range(width + 1) if c not in columns), width)
            status, shown, err = kaba("why", str(path), f"r{row}", f"c{absent}")
            tests.check(f"{path.name}: r{row} c{absent} is none", (status, shown, err) == (71, b"", f"kaba: no entry r{row} c{absent}"), err)


def check_report_why(tests):
    """What is told in words names lines, and a row or column that is not there is told in one line."""
    file = "examples/Points.java"
    status, out, err = tests.tool("report", "--why", "Points.main.x", "fld(P.a)", file)
    tests.check("report --why does not tell why", status == 0 and "\n  1. Points.main.x" in out and "since a field is read or written through it" in out, out + err)
    tests.check("a row and a column by numbers are told otherwise", tests.tool("report", "--why", "r0", "c0", file)[1] == out, out)
    for words, wanted in ((("r0", "c1"), 71), (("r9", "c0"), 1), (("r0", "c9"), 1), (("nobody", "c0"), 1), (("r0", "nothing"), 1)):
        tests.one_line(f"report --why {' '.join(words)}", wanted, tests.tool("report", "--why", *words, file))
