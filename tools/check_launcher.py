"""Tests of `./kaba` with a program that is proved, one that is older than its sources, and none; and of each tool's help."""
import os
import shutil
import subprocess
import sys
from pathlib import Path

from kaba_tools import HERE, PROGRAM, kaba
from kaba_usage import what_is_wrong

TOOLS = HERE / "tools"
NOTE = "kaba: not proved on this machine yet: "
OLDER = "kaba: the proved program is older than its sources; rt ci or tools/build proves them\n"
LOOP = "class Main { static void main(String[] a) { int i = 0; while (i < 3) { System.out.println(i); i++; } } }\n"
TWO = "class Main { static void main(String[] a) { P p = new P(); p.a = 1; } }\nclass P { int a; }\n"

# What stands for the kit's command in these tests: it does what `rt try` does with a program, without compiling it.
STAND_IN = """#!{python}
import subprocess, sys, tempfile
words = sys.argv[sys.argv.index("--") + 1 :]
if "silent" in words:
    sys.stderr.write("checked: no-answer: 1 MiB or more\\nrun=no-answer proved=no\\n")
    sys.exit(6)
with tempfile.TemporaryDirectory() as folder:
    done = subprocess.run([{program!r}, *words], cwd=folder, stdin=subprocess.DEVNULL, capture_output=True, env={{}})
sys.stdout.buffer.write(done.stdout)
sys.stderr.write("rt: a check will refuse this\\n")
sys.stderr.buffer.write(done.stderr)
sys.stderr.write(f"checked: ended status={{done.returncode}}\\nrun=ended status={{done.returncode}} runners=1 proved=no\\n")
sys.exit(done.returncode)
"""

# Words, of which the program says `usage` or not.
WORDS = [
    *("", "-h", "runn x", "run", "run x", "run x y", "run x 01", "run x 1000000001", "run x 5 a b", "table", "table a b"),
    *("base", "base f", "base -c 5 f", "base f g"),
    *("why", "why f", "why f r0", "why f 0 c0", "why f r0 c01", "why f r0 c0 c1", "why f r0 c4294967296", "same", "same f", "same f g h"),
    *("sure", "sure f", "sure -c 5 f", "sure f g"),
    *("lattice", "lattice -j", "lattice -j -c 0 f", "lattice -c 5 -j f", "lattice -c", "lattice -c 5", "lattice f -j"),
    *("edit f", "edit f g h", "edit -c 20000 f g", "edit f g -c 5", "edit -c f g", "regen f", "make", "make 0", "make 101"),
    *("make -p", "make 5 -p", "make -p 2", "--help x", "--version x", "--help", "lattice -j -j", "lattice -j f -c 5"),
]


class House:
    """A copy of what `./kaba` stands on, with stand-ins for the program and for the kit's command."""

    def __init__(self, folder):
        self.folder = Path(folder)
        for name in ("tools", "crates/kaba/src", "bin", "work/below"):
            (self.folder / name).mkdir(parents=True)
        shutil.copy(HERE / "kaba", self.folder / "kaba")
        for path in TOOLS.iterdir():
            if path.is_file():
                shutil.copy(path, self.folder / "tools" / path.name)
        self.write("crates/kaba/src/main.rt", "// a source\n")
        self.write("crates.txt", "kaba:\n")
        self.write("bin/rt", STAND_IN.format(python=sys.executable, program=PROGRAM), 0o755)
        self.write("work/loop.java", LOOP)
        self.write("work/two.java", TWO)
        self.write("work/two.edits", "drop n7\n")

    def write(self, name, text, mode=0o644):
        path = self.folder / name
        path.parent.mkdir(parents=True, exist_ok=True)
        path.write_text(text)
        path.chmod(mode)

    def program(self):
        """A stand-in for the proved program."""
        self.write("crates/kaba/out/kaba", f'#!/bin/sh\nexec "{PROGRAM}" "$@"\n', 0o755)

    def run(self, *words, path="bin", given=b"", out=subprocess.PIPE):
        environment = {**os.environ, "PATH": f"{self.folder / path}:/usr/bin:/bin:{Path(sys.executable).parent}"}
        environment.pop("KABA", None)
        done = subprocess.run(
            [str(self.folder / "kaba"), *words],
            cwd=self.folder / "work" / "below",
            input=given,
            stdout=out,
            stderr=subprocess.PIPE,
            env=environment,
        )
        return done.returncode, (done.stdout or b"").decode(), done.stderr.decode()


def unproved(tests, house):
    """Without a proved program status, output and error are those of the one that is compiled for the call."""

    def same(words, status, out, err, given=b""):
        got = house.run(*words, given=given)
        said = got[2].split("\n", 1)
        fits = got[:2] == (status, out) and said[0].startswith(NOTE) and said[1] == err
        tests.check(f"unproved {' '.join(words)}: wanted {status}", fits, got)

    same(["run", "../loop.java", "3"], 0, "0\n1\n2\n", "")
    same(["run", str(house.folder / "work" / "loop.java"), "1", "word"], 11, "0\n", "kaba: going\n")
    same(["run", "../missing.java", "3"], 66, "", "kaba: cannot read ../missing.java\n")
    same(["run", "program", "3"], 66, "", "kaba: cannot read program\n")
    same(["table", ".."], 66, "", "kaba: cannot read ..\n")
    same(["run", "/dev/stdin", "3"], 0, "0\n1\n2\n", "", LOOP.encode())
    status, out, err = kaba("edit", str(house.folder / "work/two.java"), str(house.folder / "work/two.edits"))
    same(["edit", "../two.java", "../two.edits"], status, out.decode(), err + "\n")
    same(["edit", "../two.java", "/dev/null"], 0, out.decode(), "")
    got = house.run("run", "../loop.java", "3", "silent")
    tests.check("an answer that is too long", (got[0], got[1], got[2].count("\n")) == (127, "", 2), got)
    got = house.run("run", "x")
    tests.check("unproved, with wrong words", got[:2] == (64, "") and got[2].startswith("kaba: usage\nkaba: STEPS"), got)
    got = house.run("run", "../loop.java", "3", path="nowhere")
    tests.check("without the kit", (got[0], got[1], got[2].count("\n")) == (127, "", 1), got)
    if os.path.exists("/dev/full"):
        with open("/dev/full", "w") as full:
            tests.check("unproved to a full disk", house.run("run", "../loop.java", "3", out=full)[0] == 74)


def proved(tests, house):
    """A proved program is used, also where it is older than its sources, and none is deleted."""
    house.program()
    got = house.run("run", "../loop.java", "3")
    tests.check("a proved program", got == (0, "0\n1\n2\n", ""), got)
    got = house.run("--version")
    tests.check("--version of the proved one", got[0] == 0 and "proved on this machine, of these" in got[2], got)
    got = house.run("-h")
    tests.check("-h", got[0] == 0 and "run FILE STEPS" in got[1] and got[2] == "", got)
    got = house.run("lattice")
    tests.check("what is wrong", got == (64, "", "kaba: usage\nkaba: FILE is missing: lattice [-j] [-c N] FILE\n"), got)
    built, source = house.folder / "crates/kaba/out/kaba", house.folder / "crates/kaba/src/main.rt"
    later = built.stat().st_mtime + 5
    os.utime(source, (later, later))
    got = house.run("run", "../loop.java", "3")
    tests.check("sources that were only touched", got == (0, "0\n1\n2\n", ""), got)
    house.write("crates/kaba/src/main.rt", "// another source\n")
    os.utime(source, (later, later))
    got = house.run("run", "../loop.java", "3")
    tests.check("a program older than its sources", got == (0, "0\n1\n2\n", OLDER), got)
    got = house.run("--version")
    tests.check("--version of an older one", got[0] == 0 and "but older than its sources" in got[2], got)
    shutil.rmtree(house.folder / "crates/kaba/out")
    got = house.run("run", "../loop.java", "3")
    tests.check("the program that was kept", got == (0, "0\n1\n2\n", OLDER), got)


def check_launcher(tests):
    for words in map(str.split, WORDS):
        status = kaba(*words)[0]
        tests.check(f"usage of {words}", (status == 64) == (what_is_wrong(words) is not None), what_is_wrong(words))
    house = House(tests.folder / "launcher")
    unproved(tests, house)
    check_without_program(tests, house)
    proved(tests, house)


def run_tool_of(house, name, *words, **variables):
    environment = {**os.environ, **variables}
    if "KABA" not in variables:
        environment.pop("KABA", None)
    done = subprocess.run(
        [str(house.folder / "tools" / name), *words],
        cwd=house.folder / "work",
        stdin=subprocess.DEVNULL,
        capture_output=True,
        env=environment,
    )
    return done.returncode, done.stdout.decode(errors="replace"), done.stderr.decode(errors="replace")


def check_without_program(tests, house):
    """Where the program is not built, each tool says so in one line; KABA may be a name on the PATH."""
    for name in ("explain", "report", "hierarchy", "same-runs", "bench", "check", "check-tools", "compare-java"):
        words = ["loop.java"] if name in ("explain", "report", "hierarchy") else []
        tests.one_line(f"{name} without a program", 127, run_tool_of(house, name, *words))
    os.symlink(PROGRAM, house.folder / "bin" / "kaba-elsewhere")
    path = f"{house.folder / 'bin'}:{os.environ['PATH']}"
    got = run_tool_of(house, "report", "two.java", KABA="kaba-elsewhere", PATH=path)
    tests.check("KABA as a name on the PATH", got[0] == 0 and got[1].startswith("two.java: 2 classes"), got)
    tests.one_line("KABA as no name", 127, run_tool_of(house, "report", "two.java", KABA="no-such-kaba"))


def check_help(tests):
    """Each tool tells what it does by --help and by -h, and does nothing then."""
    for path in sorted(TOOLS.iterdir()):
        if not path.is_file() or not os.access(path, os.X_OK):
            continue
        for word in ("--help", "-h"):
            done = subprocess.run([str(path), word], stdin=subprocess.DEVNULL, capture_output=True, timeout=60)
            fine = done.returncode == 0 and done.stdout.count(b"\n") > 3 and not done.stderr
            tests.check(f"{path.name} {word}: {done.returncode}", fine, (done.stdout + done.stderr)[:400].decode())
