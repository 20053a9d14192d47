"""Tests docs/SAFE_AND_TOTAL.md: its calls, clauses and definitions are there, and no call that refuses is missing."""
import importlib.machinery
import importlib.util
import re

from kaba_tools import HERE

PAGE = "docs/SAFE_AND_TOTAL.md"
ROW = re.compile(r"\| (?!-|Call|Status)(.*) \|")
CODE = re.compile(r"`([^`]+)`")
ENSURES = re.compile(r"\bensures (\w+) \{")
FAULTS = re.compile(r", (\w+)>")
# Crates below `resolve`, whose calls the page has in one sentence.
INNER = {"name_tables", "name_types"}


def contracts_tool():
    """The tool tools/contracts as a module."""
    loader = importlib.machinery.SourceFileLoader("contracts", str(HERE / "tools" / "contracts"))
    module = importlib.util.module_from_spec(importlib.util.spec_from_loader("contracts", loader))
    loader.exec_module(module)
    return module


def heads_of(contracts, text):
    """Each function of a file: what stands around it, its name, and its head."""
    lines, around = text.split("\n"), ""
    for at, line in enumerate(lines):
        if re.match(r"(pub )?(unsafe )?(impl|trait)\b", line):
            around = line
        elif line.startswith("}"):
            around = ""
        found = re.match(r"\s*(?:pub )?(?:final )?(?:const )?fn (\w+)", line)
        if found:
            end = next((k for k in range(at, len(lines)) if contracts.ends_head(lines[k])), at)
            yield around, found[1], " ".join(lines[at : end + 1])


def clauses_of(contracts, call):
    """The clauses of each function that a call of the page may name: CRATE::NAME or CRATE::TYPE::NAME."""
    crate, *of, name = call.split("::")
    found = []
    for path in sorted((HERE / "crates" / crate / "src").rglob("*.rt")):
        for around, other, head in heads_of(contracts, path.read_text(encoding="utf-8")):
            if other == name and (re.search(rf"\b{of[0]}\b", around) if of else not around):
                found.append(set(ENSURES.findall(head)))
    return found


def rows_of(text):
    """The rows of the page's tables, each as its cells."""
    return [[cell.strip() for cell in row[1].split(" | ")] for row in map(ROW.fullmatch, text.splitlines()) if row]


def without_clauses(contracts, call, clauses):
    """What is wrong with a call and the clauses that a row names."""
    found = clauses_of(contracts, call)
    if not found:
        return f"{PAGE}: no {call}"
    if not clauses or not any(set(clauses) <= those for those in found):
        return f"{PAGE}: {call} has no {' '.join(sorted(set(clauses) - set.union(*found))) or 'clause in its row'}"
    return None


def faulty_rows(contracts, rows, definitions):
    """What is wrong in the rows: calls, clauses and definitions that are not there."""
    for row in rows:
        if row[0].startswith("`"):
            call = CODE.findall(row[0])[0]
            yield without_clauses(contracts, call, CODE.findall(row[-1]))
            if not clauses_of(contracts, call):
                yield f"{PAGE}: no {call}"
        else:
            yield without_clauses(contracts, "kaba_top::kaba", CODE.findall(row[2]))
            for name in CODE.findall("".join(row[3:])):
                if not re.search(rf"(?:record|abbrev|data|unfoldable)\b[^\n]*\b{name}\b|^\s*(?:pub )?{name} :", definitions, re.M):
                    yield f"{PAGE}: no definition {name}"


def missing(contracts, rows):
    """The public calls whose fault is more than want of memory, and that no row names."""
    named = {CODE.findall(row[0])[0] for row in rows if row[0].startswith("`")}
    for (crate, around, name), heads in contracts.contracts_of(contracts.files_here(HERE)).items():
        result = re.split(r"\s(?:requires|ensures)\b", heads[0])[0].rpartition("->")[2]
        faults = set(FAULTS.findall(result)) - {"AllocError"}
        if "Result<" in result and faults and crate not in INNER:
            of = re.sub(r"impl(<.*?>)? |<.*", "", around)
            if "::".join(filter(None, (crate, of, name))) not in named:
                yield f"{PAGE}: no row of {crate}::{of + '::' if of else ''}{name}, which may answer {' '.join(sorted(faults))}"


def check_safe(tests):
    """The page on what is safe and total says what the code says today."""
    contracts = contracts_tool()
    rows = rows_of((HERE / PAGE).read_text(encoding="utf-8"))
    files = [path for name in ("kaba_top", "kaba_base") for path in (HERE / "crates" / name / "specs").rglob("*.antt")]
    definitions = "\n".join(path.read_text(encoding="utf-8") for path in files)
    wrong = [line for line in faulty_rows(contracts, rows, definitions) if line]
    tests.check(f"{len(wrong)} faults in {PAGE}", rows and not wrong, "\n".join(wrong))
    lost = list(missing(contracts, rows))
    tests.check(f"{len(lost)} calls are not in {PAGE}", not lost, "\n".join(lost))
