"""Runs of the program that compares edits, which the kit compiles without its proof (tools/compare-edits)."""
import re
import shutil
import subprocess
import sys
import tempfile
from collections import namedtuple
from pathlib import Path

from kaba_tools import HERE, fail

# No crate of the repository, so that their names end in another way than those of crates.
SOURCES = HERE / "tools" / "compare-edits-src"
NAME = "compare_edits"
# The crates on which the program stands.
BELOW = """kaba_base kaba_order java_lex java_parse java_core java_resolve java_check fact_model points_to table_rules
    concept_build flow_program hier_model hier_rules hier_edit hier_view hier_script"""
NOTE = "compare-edits: compiled without a proof, in some minutes"

COUNTS = re.compile(r"edits (\d+) accepted (\d+) different (\d+) broken((?: \d+){8})")
ENDED = re.compile(r"^case=(\S+) run=(\S+)", re.M)

# What a run says: the lines of differences, the counts where it came to its end, and else why it has none.
Answer = namedtuple("Answer", "different counts why")


def set_up(folder):
    """Writes the crates into a folder, without what is made of them and without proofs, and the program beside them."""
    ignored = shutil.ignore_patterns("out", "proofs", "must-fail", "data")
    shutil.copytree(HERE / "crates", folder / "crates", ignore=ignored)
    shutil.copy(HERE / "HANDLES", folder / "HANDLES")
    listed = (HERE / "crates.txt").read_text()
    (folder / "crates.txt").write_text(f"{listed}{NAME}: {' '.join(BELOW.split())}\n")
    sources = folder / "crates" / NAME / "src"
    sources.mkdir(parents=True)
    for path in SOURCES.glob("*.rattle"):
        shutil.copy(path, sources / f"{path.stem}.rt")


def answer_of(lines, why):
    """The answer of a run that wrote these lines."""
    found = COUNTS.fullmatch(lines[-1]) if lines else None
    if not found:
        return Answer([], None, why if not lines else lines[-1])
    counts = dict(zip(("edits", "accepted", "different"), map(int, found.groups())))
    counts.update((f"B{number}", int(count)) for number, count in enumerate(found[4].split(), 1))
    return Answer(lines[:-1], counts, "")


def outputs_of(out):
    """The lines that each run wrote, by the name of its text."""
    found, name = {}, None
    for line in out.splitlines():
        if line.startswith("== "):
            name = line[3:]
        found.setdefault(name, []).extend([] if line.startswith("== ") else [line])
    return found


def run(words, where):
    """What a command writes to its two streams; it is ended where this is."""
    how = {"stdin": subprocess.DEVNULL, "stdout": subprocess.PIPE, "stderr": subprocess.PIPE}
    with subprocess.Popen(words, cwd=where, **how) as running:
        try:
            written = running.communicate()
        except BaseException:
            running.terminate()
            raise
    return [text.decode(errors="replace") for text in written]


def answers(texts, seconds):
    """The answer of each text, by its name."""
    print(NOTE, file=sys.stderr, flush=True)
    with tempfile.TemporaryDirectory(prefix="compare-edits-") as made:
        folder = Path(made)
        set_up(folder)
        cases = folder / "cases"
        cases.mkdir()
        for name, text in texts.items():
            (cases / name).write_bytes(text)
        asked = ["rt", "try", "--steps", "1", "--seconds", str(seconds), "--cases", str(cases)]
        out, said = run(asked, folder / "crates" / NAME)
    ends = dict(ENDED.findall(said))
    if not ends:
        sys.stderr.write(said)
        fail("rt try gave no answer; its lines above say why", 127)
    outputs = outputs_of(out)
    return [(name, answer_of(outputs.get(name, []), ends.get(name, "it was not run"))) for name in texts]
