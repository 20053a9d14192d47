"""The programs whose edits tools/compare-edits compares: those of some cases, and small random programs."""
from cases import TESTS, read_case
from random_makers import ProgramWithAll, ProgramWithMakers
from random_programs import Program, ProgramWithInterfaces

EXAMPLES = (
    "regen/the-university",
    "edit/refused-edits-and-a-fresh-name",
    "edit/a-merge-that-changes-what-a-super-call-runs",
    "edit/obligations-a-store-into-an-array-that-would-fail-no-longer",
    "regen/refused-a-merge-by-which-a-failed-cast-would-pass",
)
KINDS = (Program, ProgramWithInterfaces, ProgramWithMakers, ProgramWithAll)
MEMBERS = {"STATICS": (1, 1), "FIELDS": (1, 2), "METHODS": (1, 2)}
SMALL = {**MEMBERS, "CLASSES": (2, 3), "STATEMENTS": (3, 7)}
SMALLER = {**MEMBERS, "CLASSES": (1, 2), "STATEMENTS": (2, 4)}
SMALLEST = {**SMALLER, "FIELDS": (1, 1), "METHODS": (1, 1)}


def sized(kind, sizes):
    """A kind of random programs with other sizes."""
    return type(f"Small{kind.__name__}", (kind,), sizes)


def example_texts():
    """The programs of the cases, by their names."""
    return {case.split("/")[1]: read_case(TESTS / f"{case}.txt").files["p.java"] for case in EXAMPLES}


def random_text(number):
    """Random programs, smaller and smaller, with a byte 0 between two; the first with few nodes is taken."""
    kind = KINDS[number % len(KINDS)]
    choice = [*[sized(kind, SMALL)] * 4, *[sized(kind, SMALLER)] * 3, sized(Program, SMALLEST)]
    return "\0".join(program(number * len(choice) + k, "P").text() for k, program in enumerate(choice)).encode()


def random_texts(count, seed):
    """The random programs of some numbers, by name."""
    return {f"random-{number}": random_text(number) for number in range(seed, seed + count)}
