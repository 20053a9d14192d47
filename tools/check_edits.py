"""Tests of tools/compare-edits, with a stand-in for the kit's command."""
import os
import subprocess
import sys
from pathlib import Path

TOOL = Path(__file__).resolve().parent / "compare-edits"

# What stands for the kit's command: it says of each text what `rt try` says of runs, and compiles nothing.
STAND_IN = """#!{python}
import os, sys
cases = sys.argv[sys.argv.index("--cases") + 1]
one = "under n1 n2 in place: wanted a, got b\\nedits 3 accepted 1 different 1 broken 1 0 0 0 0 1 0 0\\n"
said = {{"random-5": one, "random-6": ""}}
for name in sorted(os.listdir(cases)):
    end = "no-answer" if name == "random-6" else "ended"
    print("==", name)
    print(said.get(name, "edits 1000 accepted 990 different 0 broken 1 0 0 2 0 3 0 4\\n"), end="", flush=True)
    print(f"case={{name}} run={{end}} status=0 runners=1 proved=no", file=sys.stderr, flush=True)
print("cases=1 ended=1 fault=0 differs=0 no-answer=0 proved=no", file=sys.stderr)
"""
SAME = "7 texts, 7,000 edits: 6,930 accepted, 70 refused (B1 7, B4 14, B6 21, B8 28), 0 different\n"
DIFFERENT = """random-5: under n1 n2 in place: wanted a, got b
random-6: no answer: no-answer
6 texts, 5,003 edits: 4,951 accepted, 52 refused (B1 6, B4 10, B6 16, B8 20), 1 different
"""
NOTE = "compare-edits: compiled without a proof, in some minutes\n"


def call(path, *words):
    environment = {**os.environ, "PATH": str(path)}
    how = {"stdin": subprocess.DEVNULL, "capture_output": True, "env": environment}
    done = subprocess.run([sys.executable, TOOL, *words], **how)
    return done.returncode, done.stdout.decode(), done.stderr.decode()


def check_edits(tests):
    folder = tests.folder / "kit"
    folder.mkdir()
    tests.one_line("compare-edits without the kit", 127, call(folder))
    stand_in = folder / "rt"
    stand_in.write_text(STAND_IN.format(python=sys.executable))
    stand_in.chmod(0o755)
    for words in (["many"], ["-1"], ["--seconds", "0"], ["1", "2", "3"]):
        tests.one_line(f"compare-edits {' '.join(words)}", 64, call(folder, *words))
    got = call(folder, "2")
    tests.check("compare-edits of what is the same", got == (0, SAME, NOTE), got)
    got = call(folder, "2", "5")
    tests.check("compare-edits of what is different", got == (1, DIFFERENT, NOTE), got)
    stand_in.write_text(f"#!{sys.executable}\nimport sys\nsys.exit('rt: no such flag')\n")
    got = call(folder, "2")
    tests.check("compare-edits without an answer", got[:2] == (127, "") and got[2].count("\n") == 3, got)
