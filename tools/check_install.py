"""Tests of tools/install: what it puts under a folder works there, and is gone after --uninstall."""
import os
import shutil
import subprocess
import sys

from check_launcher import House
from kaba_tools import HERE, kaba

COMPLETED = [
    (["kaba", "r"], "_kaba", ["run", "regen"]),
    (["kaba", "lattice", "-"], "_kaba", ["-j", "-c"]),
    (["kaba", "edit", "-c", "9", "Poi"], "_kaba", ["Points.java"]),
    (["kaba", "regen", "Points.java", "poi"], "_kaba", ["points.edits"]),
]


def call(words, folder, **variables):
    environment = {**os.environ, **variables}
    environment.pop("KABA", None)
    done = subprocess.run(list(map(str, words)), cwd=folder, stdin=subprocess.DEVNULL, capture_output=True, env=environment)
    return done.returncode, done.stdout.decode(errors="replace"), done.stderr.decode(errors="replace")


def ready(tests):
    """A house from which can be installed."""
    house = House(tests.folder / "installed-from")
    for name in ("docs", "examples", "tools/completions"):
        shutil.copytree(HERE / name, house.folder / name)
    for path in (HERE / "tools").iterdir():
        if path.is_dir() and not (house.folder / "tools" / path.name).exists():
            shutil.copytree(path, house.folder / "tools" / path.name)
    shutil.copy(HERE / "README.md", house.folder / "README.md")
    return house


def check_install(tests):
    house, prefix = ready(tests), tests.folder / "prefix"
    install = [sys.executable, house.folder / "tools" / "install"]
    tests.one_line("install without a program", 127, call([*install, prefix], tests.folder))
    house.program()
    status, out, err = call([*install, prefix], tests.folder)
    tests.check("install", status == 0 and out.startswith("put ") and err == "", out + err)
    tests.check("install once more", call([*install, prefix], tests.folder)[0] == 0)
    put(tests, prefix)
    man_page(tests, prefix)
    completions(tests, prefix)
    (prefix / "bin" / "other").write_text("another program\n")
    status, out, err = call([*install, "--uninstall", prefix], tests.folder)
    left = [path.relative_to(prefix) for path in prefix.rglob("*") if not path.is_dir()]
    tests.check("install --uninstall", status == 0 and list(map(str, left)) == ["bin/other"], f"{out}{err}{left}")
    tests.check("what is left of lib/kaba", not (prefix / "lib" / "kaba").exists())
    tests.one_line("--uninstall of nothing", 66, call([*install, "--uninstall", prefix], tests.folder))
    (prefix / "bin" / "kaba").write_text("another kaba\n")
    tests.one_line("install over another kaba", 73, call([*install, prefix], tests.folder))


def put(tests, prefix):
    """The program and each tool run from where they were put."""
    path = f"{prefix / 'bin'}:{os.environ['PATH']}"
    got = call(["kaba", "run", HERE / "examples" / "loop.java", "3"], tests.folder, PATH=path)
    tests.check("the kaba that was put", got == (0, "0\n1\n2\n", ""), got)
    got = call(["kaba-report", HERE / "examples" / "Points.java"], tests.folder, PATH=path)
    tests.check("the report that was put", got[0] == 0 and "2 classes, 4 rows" in got[1] and got[2] == "", got)
    for tool in sorted((prefix / "bin").glob("kaba-*")):
        got = call([tool, "--help"], tests.folder)
        tests.check(f"{tool.name} --help", got[0] == 0 and got[2] == "", got)


def man_page(tests, prefix):
    page = prefix / "share" / "man" / "man1" / "kaba.1"
    text = page.read_text()
    for wanted in (".SH SCRIPTS", "\\fBrun FILE STEPS WORD..\\fR", ".nf"):
        tests.check(f"the man page has {wanted}", wanted in text)
    version = kaba("--version")[1].decode().strip()
    tests.check("the man page has the version", f'"{version}"' in text.split("\n")[0], text[:100])
    if shutil.which("groff"):
        done = subprocess.run(["groff", "-man", "-Tutf8", "-ww", "-z", str(page)], capture_output=True)
        tests.check("groff of the man page", done.returncode == 0 and not done.stderr, done.stderr.decode()[:400])


def completions(tests, prefix):
    """What bash offers; of zsh only that it reads its file."""
    file = prefix / "share" / "bash-completion" / "completions" / "kaba"
    for words, function, wanted in COMPLETED:
        script = f"source {file}; COMP_WORDS=({' '.join(words)}); COMP_CWORD={len(words) - 1}; {function}; "
        status, out, err = call(["bash", "-c", script + 'echo "${COMPREPLY[@]}"'], HERE / "examples")
        tests.check(f"completion of {' '.join(words)}", out.split() == wanted, out + err)
    if shutil.which("zsh"):
        got = call(["zsh", "-n", prefix / "share" / "zsh" / "site-functions" / "_kaba"], tests.folder)
        tests.check("zsh reads its completion", got[0] == 0, got)
