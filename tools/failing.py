"""Runs the program with calls of the C library that fail: memory that is refused, files that cannot be read, writes that fail."""
import itertools
import os
import shlex
import shutil
import subprocess
from collections import namedtuple
from pathlib import Path

from kaba_tools import HERE, fail

SOURCE = HERE / "tools" / "failing_calls.c"
NUMBERS = itertools.count()

# What a run came to, and how many calls there were: requests of memory, opens, reads, writes to stdout and to stderr.
Came = namedtuple("Came", "status out err memory opens reads outs errs")


def compiler():
    """The words that call the C compiler, or nothing where there is none."""
    words = shlex.split(os.environ.get("CC", "cc"))
    return words if words and shutil.which(words[0]) else None


def library(folder):
    """The library that lets calls fail, compiled into a folder."""
    made = Path(folder, "failing_calls.so")
    words = [*compiler(), "-shared", "-fPIC", "-O1", "-o", str(made), str(SOURCE), "-ldl"]
    done = subprocess.run(words, capture_output=True, text=True)
    if done.returncode:
        fail(f"{words[0]} does not compile {SOURCE}: {done.stderr.strip()}")
    return made


def run_failing(made, program, words, folder, seconds=60, **chosen):
    """Runs the program in a folder, where the calls fail that the variables of tools/failing_calls.c choose."""
    counts = Path(folder, f".counts-{next(NUMBERS)}")
    variables = {**os.environ, **{name: str(value) for name, value in chosen.items()}}
    variables |= {"LD_PRELOAD": str(made), "CALL_COUNTS": str(counts)}
    command = [os.fsencode(program), *map(os.fsencode, words)]
    try:
        done = subprocess.run(
            command, cwd=folder, env=variables, stdin=subprocess.DEVNULL, capture_output=True, timeout=seconds
        )
    except subprocess.TimeoutExpired:
        return Came(f"none within {seconds} s", b"", b"", 0, 0, 0, 0, 0)
    except OSError as error:
        fail(f"cannot run {program}: {error.strerror}", 127)
    calls = map(int, counts.read_text().split()) if counts.exists() else [0] * 5
    came = Came(done.returncode, done.stdout, done.stderr, *calls)
    counts.unlink(missing_ok=True)
    return came
