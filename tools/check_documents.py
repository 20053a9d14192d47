"""Runs the commands that the documents show, each document's in one shell, and looks at the pages themselves."""
import os
import re
import shutil
import subprocess
import sys
import tempfile
from pathlib import Path

from kaba_tools import HERE, PROGRAM

DOCUMENTS = ["README.md", *(f"docs/{name}.md" for name in ("TUTORIAL", "COMMANDS", "JAVA", "ANALYSIS", "HIERARCHY"))]
MAY_MISS = ["dot", "java", "javac", "jq"]
ANY_LINES = ".."

WIDTH = 120  # no line of a page is longer
MOST_LINES = {"README.md": 150, "docs/BUDGET.md": 120, "docs/CONTRIBUTING.md": 200}
LINK = re.compile(r"\[[^\]]*\]\(([^)#\s]+)(?:#[^)]*)?\)")
NAMED = re.compile(r"`(docs/[\w/.-]+\.md)`")


def shown(text):
    """Each command of a document, with its lines that begin with `> `, and the lines below it as what it prints."""
    found = []
    for line in text.splitlines():
        if line.startswith("    $ "):
            found.append((line[6:], []))
            inside = True
        elif found and inside and line.startswith("    > ") and not found[-1][1]:
            found[-1] = (f"{found[-1][0]}\n{line[6:]}", [])
        elif found and inside and (line.startswith("    ") or not line.strip()):
            found[-1][1].append(line[4:].rstrip())
        else:
            inside = False
    return [(command, "\n".join(lines).rstrip("\n")) for command, lines in found]


def is_left_out(command):
    """Whether the command needs what is not there, or what is no part of this repository."""
    words = re.findall(r"(?:^|[|&;] *)(\w+)", command)
    if "/everyday/" in command and not shutil.which("javac"):
        return True
    return "rt" in words or any(word in words and not shutil.which(word) for word in MAY_MISS)


def printed(commands):
    """What each of the commands prints, run one after the other."""
    with tempfile.TemporaryDirectory() as folder:
        for name in ("docs", "examples", "tools"):
            os.symlink(HERE / name, Path(folder, name))
        # The command `./kaba` that the documents show, with the program that is tested.
        shutil.copy(HERE / "kaba", Path(folder, "kaba"))
        Path(folder, "out").mkdir()
        os.symlink(PROGRAM, Path(folder, "out", "kaba"))
        lines = ["exec 2>&1"]
        for k, command in enumerate(commands):
            lines += [command, f"status=$?; printf '\\n@@@ {k}\\n'; (exit $status)"]
        Path(folder, "commands").write_text("\n".join(lines) + "\n")
        done = subprocess.run(["bash", "commands"], cwd=folder, stdin=subprocess.DEVNULL, capture_output=True)
    parts = re.split(r"\n@@@ \d+\n", done.stdout.decode(errors="replace"))
    return [part.rstrip("\n") for part in parts[: len(commands)]]


def fits(wanted, got):
    """Whether what is shown, in which a line `..` stands for any lines, is what was printed."""
    pattern = "\n".join(".*" if line.strip() == ANY_LINES else re.escape(line) for line in wanted.splitlines())
    return re.fullmatch(pattern, "\n".join(line.rstrip() for line in got.splitlines()), re.S) is not None


def check_documents(tests):
    for word in MAY_MISS:
        if not shutil.which(word):
            print(f"left out: {word} is not there")
    for document in DOCUMENTS:
        pairs = [pair for pair in shown((HERE / document).read_text()) if not is_left_out(pair[0])]
        for (command, wanted), got in zip(pairs, printed([command for command, _ in pairs])):
            tests.check(f"{document}: {command}", fits(wanted, got), got[:400])

# A page with lines that are too long, and what tools/wrap-pages makes of it.
LONG = "word " * 30
LONG_PAGE = f"""# {LONG}

{LONG}`a span of code`
ends here.

    code {LONG}

1. {LONG}
   - {LONG}

| {LONG}|
"""
FILLED = f"""# {LONG}

{"word " * 23}word
{"word " * 6}`a span of code` ends here.

    code {LONG}

1. {"word " * 22}word
   {"word " * 6}word
   - {"word " * 22}word
     {"word " * 6}word

| {LONG}|
"""


def pages():
    """Each page of the repository: its name, and its text."""
    for pattern in ("README.md", "docs/*.md", "docs/promises/*.md", "crates/*/README.md", "tests/README.md"):
        for path in sorted(HERE.glob(pattern)):
            yield str(path.relative_to(HERE)), path.read_text(encoding="utf-8")


def wrong_in(name, text):
    """What is wrong in a page: long lines, too many of them, links and names of pages that lead nowhere."""
    lines = text.splitlines()
    found = [f"{name}:{number}: {len(line)} characters" for number, line in enumerate(lines, 1) if len(line) > WIDTH]
    if len(lines) > MOST_LINES.get(name, len(lines)):
        found.append(f"{name}: {len(lines)} lines, {MOST_LINES[name]} are wanted")
    links = [link for link in LINK.findall(text) if "://" not in link]
    found += [f"{name}: no {link}" for link in links if not (HERE / name).parent.joinpath(link).exists()]
    return found + [f"{name}: no {page}" for page in NAMED.findall(text) if not (HERE / page).exists()]


def without_blanks(text):
    return re.sub(r"\s+|,(?=\s*\))", "", text)


def check_pages(tests):
    """The pages can be read at one width, lead somewhere, are all found from the README, and show what is there."""
    texts = dict(pages())
    wrong = [line for name, text in texts.items() for line in wrong_in(name, text)]
    tests.check(f"{len(wrong)} faults in pages", not wrong, "\n".join(wrong))
    linked = {*LINK.findall(texts["README.md"]), *(f"docs/{link}" for link in LINK.findall(texts["docs/PROMISES.md"]))}
    lost = [name for name in texts if name.startswith("docs/") and name not in linked]
    tests.check("the README has no link to these pages", not lost, "\n".join(lost))
    promises = subprocess.run([sys.executable, "tools/promises", "--check"], cwd=HERE, capture_output=True, text=True)
    tests.check("docs/PROMISES.md", promises.returncode == 0, promises.stderr)
    contract = re.search(r"```\n(pub fn kaba.*?)```", texts["docs/CONTRACT.md"], re.S)
    source = (HERE / "crates/kaba_top/src/lib.rt").read_text(encoding="utf-8")
    same = contract is not None and without_blanks(contract[1]) + "{" in without_blanks(source)
    tests.check("docs/CONTRACT.md does not show the contract of kaba as it is", same)


def check_wrap_pages(tests):
    file = tests.path("long.md", LONG_PAGE)
    status, out, err = tests.tool("wrap-pages", "--list", str(file))
    tests.check("wrap-pages --list", (status, out.count("\n")) == (1, 6) and file.read_text() == LONG_PAGE, out + err)
    status, out, err = tests.tool("wrap-pages", str(file))
    tests.check("wrap-pages", (status, out.count("\n")) == (1, 3) and file.read_text() == FILLED, file.read_text())
    tests.one_line("wrap-pages of no page", 66, tests.tool("wrap-pages", "missing.md"))
