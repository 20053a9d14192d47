"""What is sure of every run, marked in the source: what `kaba sure` prints, in words."""
import re

from kaba_tools import fail, kaba

LINE = re.compile(r"(cast|call) (\S+)@(\d+) (sure|open|none|many|one c(\d+))|c(\d+) .*|(casts|calls|dead) \d+")


def body_words(analysis, c):
    """A body by its class and line."""
    return f"{analysis.member(c)}() (line {analysis.column_line(c)})"


def cast_words(analysis, name, verdict, body):
    return f"the cast to {name} never fails" if verdict == "sure" else None


def call_words(analysis, name, verdict, body):
    if verdict == "none":
        return f"the call of {name}() runs no body: nothing can be its receiver"
    return f"the call of {name}() runs no body but that of {body_words(analysis, int(body))}" if body else None


def dead_words(analysis, c):
    name = analysis.member(c)
    return f"no run enters the body of {name}()" if analysis.is_method(c) else f"no run reads or writes {name} of an object"


def marks(analysis):
    """What is sure at each line of the text: lists of words by line, and how much of the casts, calls and members is sure."""
    status, output, error = kaba("sure", analysis.file)
    if status:
        fail(error or f"the program ends with {status}", status)
    found, counts = {}, {"cast": [0, 0], "call": [0, 0], "member": 0}
    for text in output.decode().splitlines():
        kind, name, line, verdict, body, dead, _ = LINE.fullmatch(text).groups()
        if dead:
            counts["member"] += 1
            found.setdefault(analysis.column_line(int(dead)), []).append(dead_words(analysis, int(dead)))
        elif kind:
            words = (cast_words if kind == "cast" else call_words)(analysis, name, verdict, body)
            counts[kind] = [counts[kind][0] + (words is not None), counts[kind][1] + 1]
            if words:
                found.setdefault(int(line), []).append(words)
    return found, counts


def class_of_line(analysis, line):
    """The class whose text a line stands in."""
    before = [(at, name) for name, at in analysis.declared.classes.items() if at <= line]
    return max(before)[1] if before else None


def words_by_place(analysis, name=None):
    """What is sure, by the place of the line among those that are shown, and how much of all is sure; of one class where one is asked for."""
    found, counts = marks(analysis)
    shown = {}
    for line, words in found.items():
        at = analysis.given.shown_line(line)
        if at and (name is None or class_of_line(analysis, line) == name):
            said = shown.setdefault(at, (line, []))[1]
            said += [it for it in map(analysis.given.said, words) if it not in said]
    return shown, counts


def section(analysis, name=None):
    """The heading and the lines: each line of the source on which something is sure, and behind it what."""
    shown, counts = words_by_place(analysis, name)
    (casts, all_casts), (calls, all_calls) = counts["cast"], counts["call"]
    heading = f"what is sure of every run: {casts} of {all_casts} casts, {calls} of {all_calls} calls, {counts['member']} members that no run reaches"
    source = analysis.given.shown_lines(analysis.source.data.decode(errors="replace"))
    lines = []
    for at, (line, words) in sorted(shown.items()):
        lines += [f"  {analysis.given.line_words(line)}: {source[at - 1].strip()}", *[f"    {it}" for it in words]]
    return heading, lines or ["  nothing"]
