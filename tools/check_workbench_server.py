"""Tests of the workbench's server, and of what it keeps, without a browser."""
import json
import os
import shutil
import signal
import socket
import subprocess
import sys

from kaba_tools import HERE, kaba
from workbench_browser import Workbench
from workbench_script import Script, title_of

EXAMPLES = HERE / "examples"
MERGE = "merge n1 n2 n3 n4 n5 n9 n10 n22"


def house(tests, name):
    """A folder with the tutorial's program."""
    folder = tests.place(name)
    shutil.copy(EXAMPLES / "House.java", folder / "House.java")
    return folder / "House.java"


def asked(workbench, path, value=None, headers=()):
    status, text = workbench.ask(path, value, headers)
    return status, json.loads(text) if text.startswith("{") else text


def edit(workbench, *edits, title="an edit", revision=None):
    return asked(workbench, "api/edit", {"choices": [list(edits)], "title": title, "revision": revision})[1]


def check_refused_requests(tests):
    """No other page, no other name of the host, no wrong key, and no other file."""
    with Workbench(house(tests, "requests")) as workbench:
        root, port = workbench.address.rsplit("/", 2)[0] + "/", workbench.address.split(":")[2].split("/")[0]
        tests.check("the page is served", workbench.ask("")[0] == 200)
        for what, headers, wanted in (
            ("another origin", {"Origin": "http://evil.example"}, 403),
            ("a page of a file", {"Origin": "null"}, 403),
            ("another port", {"Origin": "http://127.0.0.1:1"}, 403),
            ("a request across sites", {"Sec-Fetch-Site": "cross-site"}, 403),
            ("another name of the host", {"Host": f"evil.example:{port}"}, 421),
            ("its own origin", {"Origin": f"http://127.0.0.1:{port}"}, 200),
        ):
            got = workbench.ask("api/state", None, headers)[0]
            tests.check(f"{what}: wanted {wanted}, got {got}", got == wanted)
        got = workbench.ask("api/edit", {"choices": [["drop n0"]], "title": ""}, {"Origin": "http://evil.example"})[0]
        tests.check("an edit from another origin", got == 403)
        for path in ("", "api/state", "wrong/", "wrong/api/state", workbench.address[len(root) : -2] + "/api/state",
            "index.html"):
            tests.check(f"without the key: {path}", workbench.ask(path, address=root)[0] == 404)
        for path in ("../../etc/passwd", "../kaba_tools.py", "..%2fkaba_tools.py", "/etc/passwd", "api/", "api/nothing",
            "get/../x", "page.css/.."):
            tests.check(f"a path outside: {path}", raw(port, workbench.address, path) == 404)
        check_bad_bodies(tests, workbench)
        tests.check("it listens on 127.0.0.1 alone", not listens_elsewhere(int(port)))


def check_bad_bodies(tests, workbench):
    for what, value, headers, wanted in (
        ("no JSON", b"{", {}, 400),
        ("a list", b"[]", {}, 400),
        ("a form", b"a=b", {"Content-Type": "application/x-www-form-urlencoded"}, 415),
        ("too much", b" " * ((4 << 20) + 1), {}, 413),
        ("no edit", {"choices": [["merge n1"]], "title": ""}, {}, 422),
        ("two lines in one", {"choices": [["drop n0\ndrop n1"]], "title": ""}, {}, 422),
        ("a number as a title", {"choices": [["drop n0"]], "title": 1}, {}, 422),
        ("a state that is gone", {"choices": [["drop n0"]], "title": "", "revision": "0"}, {}, 409),
    ):
        try:
            got = workbench.ask("api/edit", value, headers)[0]
        except OSError:
            got = 413
        tests.check(f"{what}: wanted {wanted}, got {got}", got == wanted)
    tests.check("nothing was made of these", asked(workbench, "api/state")[1]["steps"] == [])


def raw(port, address, path):
    """The status of a path that is sent as it is written."""
    key = "/" + address.split("/")[3] + "/"
    with socket.create_connection(("127.0.0.1", int(port)), timeout=10) as opened:
        opened.sendall(f"GET {key}{path} HTTP/1.1\r\nHost: 127.0.0.1:{port}\r\nConnection: close\r\n\r\n".encode())
        return int(opened.makefile("rb").readline().split()[1])


def listens_elsewhere(port):
    """Whether the port answers by an address of this machine that other machines have too."""
    for name in {it[4][0] for it in socket.getaddrinfo(socket.gethostname(), None, socket.AF_INET)} | {"127.0.0.2"}:
        if name != "127.0.0.1":
            try:
                socket.create_connection((name, port), timeout=2).close()
                return True
            except OSError:
                pass
    return False


def check_script(tests):
    """Accepted edits are in the file, refused ones are not, and what was undone can be done again after a kill."""
    file = house(tests, "script")
    script = file.with_suffix(".edits")
    with Workbench(file) as workbench:
        tests.check("no script before the first edit", not script.exists())
        refused = edit(workbench, "merge n11 n55")
        tests.check("a refused edit", not refused["accepted"] and refused["refusal"]["where"]["nodes"] == [23],
            str(refused)[:300])
        tests.check("it is told in words", "Device_23" in refused["refusal"]["text"]
            and "between" in refused["refusal"]["text"], str(refused)[:300])
        tests.check("and the script is not begun", not script.exists())
        mends = asked(workbench, "api/mends", {"edits": ["merge n11 n55"], "title": ""})[1]["mends"]
        tests.check("what lies between mends it", mends and all(edit_is_taken(file, it["edits"]) for it in mends),
            str(mends))
        tests.check("an edit", edit(workbench, MERGE)["accepted"])
        both = edit(workbench, "type n1 Device", "drop n0", title="a name\nand a drop")
        tests.check("two edits in a step", both["accepted"])
        wanted = f"{MERGE}\n# 2 edits: a name and a drop\ntype n1 Device\ndrop n0\n"
        tests.check("the script is on disk", script.read_text() == wanted, script.read_text())
        refused = edit(workbench, "type n1 Lamp", "type n11 lamp")
        tests.check("a step is made whole or not at all", not refused["accepted"] and script.read_text() == wanted)
        asked(workbench, "api/undo", {"count": 1})
        workbench.end(signal.SIGKILL)
    undone = "".join(f"# undone: {line}\n" for line in wanted.splitlines()[1:])
    tests.check("what is undone is kept", script.read_text() == f"{MERGE}\n{undone}", script.read_text())
    with Workbench(file) as workbench:
        state = asked(workbench, "api/state")[1]
        tests.check("a killed workbench loses nothing", (len(state["steps"]), len(state["undone"])) == (1, 1),
            str(state)[:300])
        status, text = workbench.ask("get/script.edits")
        tests.check("the script that is handed out has no undone edits", text == f"{MERGE}\n", text)
        state = asked(workbench, "api/undo", {"count": -1})[1]["state"]
        tests.check("redo", script.read_text() == wanted and state["steps"][1]["title"] == "a name and a drop")
        _, shown, _ = kaba("edit", "-c", "16384", str(file), str(script))
        tests.check("the hierarchy is that of kaba edit", len(state["nodes"]) == int(shown.split()[1]))
        check_outside_change(tests, workbench, script)


def edit_is_taken(file, edits):
    script = file.with_suffix(".tried")
    script.write_text("".join(line + "\n" for line in edits))
    return kaba("edit", str(file), str(script))[0] == 0


def check_outside_change(tests, workbench, script):
    """A script that another program writes is not written over unasked."""
    script.write_text("# mine\ndrop n0\nmerge n11 n55\n")
    status, answer = asked(workbench, "api/edit", {"choices": [["drop n0"]], "title": ""})
    tests.check("a script changed outside is left alone", status == 422 and script.read_text().startswith("# mine"),
        str(answer)[:300])
    state = asked(workbench, "api/reread", {})[1]
    tests.check("and is read again", [it["lines"][-1] for it in state["steps"]] == ["drop n0", "merge n11 n55"],
        str(state)[:300])
    tests.check("its refused edit is told", [it["line"] for it in state["refused"]] == [3], str(state["refused"]))
    state = asked(workbench, "api/clean", {})[1]["state"]
    tests.check("and taken out", script.read_text() == "# mine\ndrop n0\n" and state["refused"] == [],
        script.read_text())


def check_words(tests):
    """Words that fit nothing, files that are not there, and scripts with a fault end in one line."""
    file = house(tests, "words")
    bad, plan = file.with_suffix(".bad.edits"), file.parent / "a.edits"
    bad.write_text("drop n0\nmerge 1 2\n")
    plan.write_text("")
    for what, words, status, part in (
        ("no words", [], 64, "required"),
        ("a port", ["--port", "http", str(file)], 64, "port"),
        ("no file", [str(file.parent / "None.java")], 66, "cannot read"),
        ("a program that is refused", [str(plan)], 65, "refused"),
        ("a script with a fault", [str(file), str(bad)], 1, ":2: "),
        ("a folder that is not there", [str(file), str(file.parent / "no" / "x.edits")], 66, "no folder"),
    ):
        done = subprocess.run([sys.executable, str(HERE / "tools" / "workbench"), *words], capture_output=True,
            text=True, timeout=60)
        one = done.returncode == status and done.stderr.count("\n") == 1 and part in done.stderr and not done.stdout
        tests.check(f"{what}: wanted one line and {status}, got {done.returncode}", one, done.stdout + done.stderr)
    done = subprocess.run([sys.executable, str(HERE / "tools" / "workbench"), "--help"], capture_output=True, text=True,
        timeout=60)
    tests.check("--help", done.returncode == 0 and "127.0.0.1" in done.stdout, done.stderr)


def check_read_only(tests):
    """Where the script cannot be written, nothing is changed, and it is said."""
    file = house(tests, "read-only")
    with Workbench(file, file.parent / "x.edits") as workbench:
        shutil.move(file.parent, file.parent.with_name("moved"))
        status, answer = asked(workbench, "api/edit", {"choices": [["drop n0"]], "title": ""})
        tests.check("a script that cannot be written", status == 422 and "nothing was changed" in answer["why"],
            str(answer)[:300])
        shutil.move(file.parent.with_name("moved"), file.parent)
        tests.check("and then can", edit(workbench, "drop n0")["accepted"]
            and (file.parent / "x.edits").read_text() == "drop n0\n")
        file.write_text(file.read_text() + "// more\n")
        tests.check("another text of the program is told", asked(workbench, "api/state")[1]["stale"])
        file.write_text("class A {")
        tests.check("one that is refused is not taken", asked(workbench, "api/reread", {})[0] == 422)
        tests.check("it ends when it is told to", workbench.end(signal.SIGINT) == 0)
    left = [it for it in os.listdir(file.parent) if it.startswith(".")]
    tests.check("no half-written file is left", not left, str(left))


def check_steps(tests):
    """A script's text is kept line by line, whatever its comments."""
    folder = tests.place("steps")
    for name, text, steps in (
        ("plain", "# of all\ndrop n0\n\ndrop n1\n# end\n", ["drop n0", "drop n1"]),
        ("group", "# 2 edits: both\ndrop n0\ndrop n1\ndrop n2\n", ["both", "drop n2"]),
        ("short group", "# 3 edits: all\ndrop n0\ndrop n1\n", ["all"]),
        ("empty", "", []),
        ("comments", "# a\n\n# b\n", []),
        ("no end", "drop n0", ["drop n0"]),
    ):
        path = folder / "a.edits"
        path.write_text(text)
        script = Script(path)
        script.read()
        tests.check(f"steps of {name}", [title_of(it) for it in script.steps] == steps, str(script.steps))
        tests.check(f"text of {name}", script.whole() == (text + "\n" if text and not text.endswith("\n") else text),
            script.whole())
        script.put(script.steps[:-1], script.steps[-1:])
        again = Script(path)
        again.read()
        tests.check(f"undone of {name}", (again.steps, again.undone) == (script.steps, script.undone), path.read_text())


PARTS = [check_steps, check_words, check_refused_requests, check_script, check_read_only]
