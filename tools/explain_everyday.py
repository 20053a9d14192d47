"""What tools/explain says of everyday Java, in its own lines: what stands in the way, how the run ends, refused edits."""
import contextlib
import io
import re
import sys
import tempfile
from pathlib import Path

from explain_script import explain_script
from explain_trace import trace
from explain_written import explain_written
import explain_words as words
from from_java_tool import LIBRARY
from kaba_given import bring
from kaba_tools import FILE_LIMIT, Source, bytes_of, kaba

REFUSED, FAULT, SPENT = 65, 10, 11
TOLD = re.compile(r"(.*?):(\d+):(\d+): (.*)")
STOP = b"static void stop(String what) {"
MARK = "\x02"


def line_of(file, number):
    """The text of a line of a file; nothing where it cannot be read."""
    try:
        lines = Path(file).read_text(encoding="utf-8", errors="replace").split("\n")
    except OSError:
        return None
    return lines[number - 1] if 1 <= number <= len(lines) else None


def show(file, line, column, message):
    """A place of the sources, its line with a caret, and a sentence."""
    name = f"library {Path(file).name}" if Path(file).is_relative_to(LIBRARY) else file
    print(f"{name}:{line}:{column}: {message}")
    text = line_of(file, line)
    if text is not None:
        print("    " + text)
        print("    " + "".join("\t" if c == "\t" else " " for c in text[: column - 1]) + "^")


def in_the_way(said):
    """What tools/from-java says, each place with its line."""
    for line in said.rstrip("\n").split("\n"):
        found = TOLD.fullmatch(line)
        if found:
            show(found[1], int(found[2]), int(found[3]), found[4])
        else:
            print(line)
    return REFUSED


def thrown(data, steps, given):
    """The text of the exception that ended the run, where one did: the run with a line printed where it ends so."""
    text = data.replace(STOP, STOP + f' System.out.println("{MARK}" + what);'.encode())
    if text == data or len(text) > FILE_LIMIT:
        return None
    with tempfile.TemporaryDirectory() as folder:
        file = Path(folder) / "thrown.java"
        file.write_bytes(text)
        _, output, _ = kaba("run", str(file), str(steps), *given)
    last = output.decode(errors="replace").rpartition(MARK)
    return last[2].rstrip("\n") if last[1] else None


def faulted(found, kind, asked):
    """The fault or the exception that ended a run, and the statements that were being carried out."""
    data = bytes_of(found.file)
    what = thrown(data, asked.steps, asked.words) if kind == "NegativeSize" else None
    print(f"{found.name}: " + (f"nobody catches {what}" if what else f"fault {kind}: {words.FAULTS.get(kind, kind)}"))
    source = Source(data)
    frames = trace(source, asked.words)
    seen = None
    for label, k in reversed(frames):
        place = found.place(source.line_of(source.tokens[k]))
        if label != "Thrown.stop" and place and place != seen:
            show(*place, f"in {found.of_method(label)}")
            seen = place
    if not frames:
        print(f"{found.name}: where it stands is not known: the run or the text is too long to be noted")


def explain_run(found, asked):
    status, output, error = kaba("run", found.file, str(asked.steps), *asked.words)
    if status == FAULT:
        if output:
            last = output.decode(errors="replace").rstrip("\n").split("\n")[-1]
            print(f"{found.name}: the last line printed is: {last}")
        faulted(found, error.rsplit(" ", 1)[-1], asked)
    elif status == SPENT:
        print(f"{found.name}: brought in; the run is not at its end after {asked.steps} steps: --steps N allows more")
    elif status == 0:
        print(f"{found.name}: brought in; the run comes to its end")
    else:
        print(f"explain: {error or 'no memory'}", file=sys.stderr)
    return status


def explain_everyday(asked, script):
    """Explains a folder or a file of everyday Java; gives the status."""
    found, said = bring(asked.file)
    if found is None:
        return in_the_way(said)
    if not asked.written and not script:
        return explain_run(found, asked)
    shown = io.StringIO()
    with contextlib.redirect_stdout(shown):
        if asked.written:
            status = explain_written(found.file, asked.words[0] if asked.words else None)
        else:
            status = explain_script(found.file, script)
    print(found.said(shown.getvalue().replace(found.file, found.name)), end="")
    return status
