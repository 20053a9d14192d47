"""A man page of a document in Markdown, as docs/COMMANDS.md is written: headings, text, lists, tables and indented examples."""
import re

HEADING = re.compile(r"(#+) (.*)")
ROW = re.compile(r"(?<!\\)\|")


def escaped(text):
    """A text as roff has it, and no line of it a command."""
    text = text.replace("\\", "\\e").replace("-", "\\-")
    return "\\&" + text if text[:1] in (".", "'") else text


def styled(text):
    """A line with its code in bold and its links as their words."""
    text = re.sub(r"!\[[^\]]*\]\([^)]*\)", "", text)
    text = re.sub(r"\[([^\]]*)\]\([^)]*\)", r"\1", text).replace("\\|", "|")
    parts = re.split(r"(`[^`]*`|\*\*[^*]+\*\*)", text)
    made = ""
    for part in parts:
        inner = part.strip("`*") if part[:1] == "`" or part[:2] == "**" else None
        made += f"\\fB{escaped(inner)}\\fR" if inner is not None else part.replace("\\", "\\e")
    return "\\&" + made if made[:1] in (".", "'") else made


def cells(line):
    return [cell.strip() for cell in ROW.split(line.strip())[1:-1]]


def table(lines):
    """A table: each row as a term, its first cell, and what the other cells say, with their headings where there are many."""
    head, rows = cells(lines[0]), [cells(line) for line in lines[2:]]
    for row in rows:
        yield from (".TP", styled(row[0]) or "\\&")
        several = len(row) > 2
        said = [f"{name}: {text}" if several else text for name, text in zip(head[1:], row[1:])]
        yield styled(". ".join(said))


def example(lines):
    yield ".PP"
    yield ".RS 4"
    yield ".nf"
    for line in lines:
        yield escaped(line[4:]) if line.strip() else ""
    yield ".fi"
    yield ".RE"


def paragraph(lines):
    """Text, or a list's entry."""
    text = " ".join(line.strip() for line in lines)
    if not styled(text).strip():
        return []
    if text.startswith("- "):
        return ['.IP "\\(bu" 2', styled(text[2:])]
    return [".PP", styled(text)]


def kind_of(line):
    if not line.strip():
        return "blank"
    if line.startswith("    "):
        return "example"
    if line.startswith("|"):
        return "table"
    return "heading" if HEADING.match(line) else "text"


def blocks(text):
    """The parts of a document, each with its kind; a list's entry is a part of its own."""
    part, kind = [], "blank"
    for line in [*text.splitlines(), ""]:
        now = kind_of(line)
        goes_on = now == kind and now != "heading" and not line.startswith("- ")
        goes_on = goes_on or kind == "example" and now == "blank" or kind == "text" and part[0].startswith("- ") and line[:2] == "  "
        if goes_on:
            part.append(line)
            continue
        while part and not part[-1].strip():
            part.pop()
        if part:
            yield kind, part
        part, kind = [line], now
    if part and part[0].strip():
        yield kind, part


MADE = {"example": example, "table": table, "text": paragraph}


def man_page(text, name, summary, version):
    """The page of a command, of a document whose first heading is left out."""
    lines = [f'.TH {name.upper()} 1 "" "{version}" "{name}"', ".SH NAME", f"{name} \\- {summary}", ".SH DESCRIPTION"]
    for kind, part in blocks(text):
        if kind == "heading":
            depth, title = HEADING.match(part[0]).groups()
            if len(depth) > 1:
                lines.append(f".{'SH' if len(depth) == 2 else 'SS'} {styled(title).upper() if len(depth) == 2 else styled(title)}")
        elif kind != "blank":
            lines += MADE[kind](part)
    return "\n".join(lines) + "\n"
