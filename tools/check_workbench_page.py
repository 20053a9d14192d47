"""Tests of the workbench's page: a person's way through it, in a headless Chromium."""
import shutil
import signal
import subprocess
import sys

from check_workbench_server import EXAMPLES, house
from kaba_tools import HERE, kaba
from workbench_browser import Page, Workbench, wait_for_file
from workbench_runs import has_tool
from workbench_script import Step, edits_of

LAMP, HEATER, METER = 55, 56, 57  # the types of the three creations of the tutorial's program
LAMPS = [11, 12, 15, 23, 24, 30, 31, 32, 41, 44, 45, 46, 52, 55]


def edits_in(text):
    """The edits of a script's text, without comments."""
    return edits_of(Step(text.splitlines()))


def merge_named(page, name):
    page.one("#merge-name").clear()
    page.one("#merge-name").send_keys(name)
    page.press("#merge")


def check_first_sight(tests):
    """The hierarchy and the source are there, and each shows what is meant in the other."""
    with Workbench(house(tests, "sight")) as workbench, Page() as page:
        page.open(workbench.address)
        page.until("58 types", lambda: len(page.all("#boxes .node")) == 58)
        tests.check("the source is shown", "class Device {" in page.text("#view-source")
            and len(page.all(".source-line")) == 161)
        page.press("#line40 .spot")
        page.until("the creation's type is selected", lambda: page.selected() == [LAMP])
        lit = [it.get_attribute("data-items") for it in page.all(".spot.lit")]
        tests.check("and its mark is lit", lit == ["r6"], str(lit))
        page.one("#find").send_keys("wanted")
        page.until("something is found", lambda: page.all("#found li"))
        page.one("#found li").click()
        page.until("the member's type is selected", lambda: page.selected() == [25])
        page.press("#show-empty")
        page.until("empty types are hidden", lambda: len(page.script(
            "return import('./diagram.js').then((it) => [...it.laid.boxes.keys()])")) == 51)
        page.press("#fold-unasked")
        page.until("what nothing asks for is folded", lambda: page.all("#boxes .node.folded"))
        page.tab("classes")
        page.until("old and new classes", lambda: len(page.all(".card[data-class]")) == 3
            and len(page.all(".card[data-node]")) == 58)
        faults = page.faults()
        tests.check("the browser complains of nothing, and asks no other host", not faults, "\n".join(faults))
        check_looks(tests, page)


def check_looks(tests, page):
    """Nothing stands outside the window, by day and by night, and each control has a name."""
    for width, height in ((1280, 800), (1920, 1080)):
        page.size(width, height)
        wide = page.script("return [document.documentElement.scrollWidth, document.documentElement.scrollHeight]")
        tests.check(f"the page fits {width} pixels", wide[0] <= width and wide[1] <= height, str(wide))
    grounds = []
    for scheme in ("light", "dark"):
        page.scheme(scheme)
        grounds.append(page.script("return getComputedStyle(document.body).backgroundColor"))
    tests.check("light and dark", grounds == ["rgb(246, 247, 249)", "rgb(21, 24, 29)"], str(grounds))
    nameless = page.script(
        "return [...document.querySelectorAll('button, input, select, textarea, a')]"
        ".filter((it) => !it.textContent.trim() && !it.ariaLabel"
        " && !(it.labels && it.labels.length) && !it.title).map((it) => it.outerHTML.slice(0, 120))"
    )
    tests.check("each control has a name", not nameless, str(nameless))


def check_refused(tests):
    """A refused edit changes nothing, is told at the type that it names, and can be mended."""
    file = house(tests, "refused")
    with Workbench(file) as workbench, Page(1920, 1080) as page:
        page.open(workbench.address)
        page.choose(11, LAMP)
        page.press("#merge")
        page.until("it is refused in words", lambda: "Device_23 (n23) lies between" in page.text("#refusal"))
        tests.check("the type is marked", page.one("#n23").get_attribute("class").endswith("refused"))
        tests.check("no script is begun", not file.with_suffix(".edits").exists() and page.state()["steps"] == [])
        page.press_text("Merge what lies between too", "#refusal")
        page.settled(1)
        tests.check("the mend is made", edits_in(file.with_suffix(".edits").read_text()) == [
            "merge n11 n23 n24 n41 n44 n45 n55"])
        page.name_in_place(page.see(11).find_element("css selector", ".head"), "lamp")
        page.until("a bad name is refused", lambda: "'lamp' is taken" in page.text("#refusal"))
        page.press_text("Call it Lamp", "#refusal")
        page.settled(2)
        page.press("#undo")
        page.settled(1)
        page.press("#redo")
        page.settled(2)
        tests.check("undo and redo", page.state()["nodes"][10]["name"] == "Device_10"
            and page.script("return import('./store.js').then((it) => it.store.model.name(11))") == "Lamp")
        check_drag(tests, page)
        check_keys(tests, page)


def check_drag(tests, page):
    """Members and types are dragged; one that is needed where it stands is refused, its row named."""
    count = len(page.state()["steps"])
    member = page.see(13).find_element("css selector", ".member")
    page.drag(member, page.see(27).find_element("css selector", ".head"))
    page.until("it is refused", lambda: "readings" in page.text("#refusal") and "Refused" in page.text("#refusal"))
    tests.check("the variable is named", page.all("#refusal .chip"))
    page.press("#refusal .close")
    page.drag(page.see(13).find_element("css selector", ".member"), page.see(6).find_element("css selector", ".head"))
    page.settled(count + 1)
    tests.check("the member is moved", page.state()["steps"][-1]["lines"] == ["move c18 n6"],
        str(page.state()["steps"][-1]))
    page.drag(page.see(14).find_element("css selector", ".head"), page.see(13).find_element("css selector", ".head"))
    page.until("what may be done with it", lambda: page.all("#menu button"))
    page.press_text("Put", "#menu")
    page.settled(count + 2)
    tests.check("the type is put under the other", page.state()["steps"][-1]["lines"] == ["under n14 n13"],
        str(page.state()["steps"][-1]))


def check_keys(tests, page):
    """All of it by the keyboard."""
    from selenium.webdriver.common.keys import Keys

    count = len(page.state()["steps"])
    press = lambda *keys: page.actions().send_keys(*keys).perform()
    page.press("#fit")
    page.script("document.getElementById('find').focus()")
    press("furnish", Keys.ENTER)
    page.until("found by keys", lambda: len(page.selected()) == 1)
    press(Keys.F2)
    page.until("a field for the name", lambda: page.one("input.in-place"))
    press("Furnished", Keys.ENTER)
    page.settled(count + 1)
    before = page.script("return import('./store.js').then((it) => it.store.focus)")
    press(Keys.ARROW_RIGHT, " ")
    page.until("the next type is selected too", lambda: len(page.selected()) == 2)
    tests.check("arrow keys go to another type", page.script(
        "return import('./store.js').then((it) => it.store.focus)") != before)
    page.actions().key_down(Keys.CONTROL).send_keys("z").key_up(Keys.CONTROL).perform()
    page.settled(count)
    page.actions().key_down(Keys.CONTROL).send_keys("y").key_up(Keys.CONTROL).perform()
    page.settled(count + 1)
    press("?")
    page.until("the keys are told", lambda: page.one("#help").get_attribute("open"))
    press(Keys.ESCAPE)
    tests.check("what is said to a screen reader", page.text("#said") != "")


def check_tutorial(tests):
    """The whole example of the tutorial by the mouse, names aside: the script is that of examples/house.edits."""
    file, downloads = house(tests, "tutorial"), tests.place("downloads")
    with Workbench(file) as workbench, Page(1920, 1080, downloads) as page:
        page.open(workbench.address)
        page.choose(LAMP, HEATER, METER)
        page.press_text("what they have in common", "#side")
        page.until("eight types", lambda: page.selected() == [1, 2, 3, 4, 5, 9, 10, 22])
        merge_named(page, "Device")
        page.settled(1)
        for count, (number, name) in enumerate(((LAMP, "Lamp"), (HEATER, "Heater"), (METER, "Meter")), 2):
            page.choose(number)
            page.press_text("what it alone needs", "#side")
            page.until("more types", lambda: len(page.selected()) > 1)
            if name == "Lamp":
                tests.check("what the lamp alone needs", page.selected() == LAMPS, str(page.selected()))
            merge_named(page, name)
            page.settled(count)
        page.choose(7)
        page.press_text("all of Room", "#side")
        page.until("the rooms", lambda: len(page.selected()) == 14)
        merge_named(page, "Room")
        page.settled(5)
        page.choose(0)
        page.press_text("Drop", "#side")
        page.settled(6)
        wanted = edits_in((EXAMPLES / "house.edits").read_text())
        got = edits_in(file.with_suffix(".edits").read_text())
        tests.check("the script is that of the tutorial", got == wanted, "\n".join(got))
        check_results(tests, page, file, downloads)
        check_closed(tests, page, workbench, file)


def check_results(tests, page, file, downloads):
    """What the page shows and hands out is what the commands give."""
    page.until("a tree is found", lambda: page.text("#tree") == "tree: found")
    page.tab("script")
    page.press("#get-script")
    script = downloads / "House.edits"
    tests.check("the script is handed out", wait_for_file(script) == file.with_suffix(".edits").read_bytes())
    status, text, error = kaba("regen", "-c", "16384", str(file), str(script))
    tests.check("kaba regen takes it", (status, error) == (0, ""), error)
    page.tab("java")
    page.until("the texts stand beside each other", lambda: page.all("#diff tr"))
    if len(page.all("#java-form option")) > 1:
        page.press('#java-form option[value="written"]')
    whole = (
        "return [...document.querySelectorAll('#diff .code.right')].map((it) => it.textContent)"
        ".filter((it) => it).join('\\n')"
    )
    same = page.until("the new Java is shown", lambda: page.script(whole) == text.decode().rstrip("\n"))
    tests.check("the new Java is that of kaba regen", same)
    tests.check("differences are marked", page.all("#diff tr.gone, #diff tr.changed") and page.all("#diff tr.same"))
    page.press("#get-java")
    tests.check("the Java is handed out", wait_for_file(downloads / "House.java") == text)
    page.tab("runs")
    page.one("#run-words").send_keys("holiday")
    page.press("#run-both")
    page.until("both ran", lambda: "Both print the same" in page.text("#run-answer"))
    _, output, _ = kaba("run", str(file), "1000000", "holiday")
    outputs = [it.get_attribute("textContent") for it in page.all("#run-answer pre")]
    tests.check("the outputs are those of kaba run", outputs == [output.decode()] * 2, str(outputs))


def check_closed(tests, page, workbench, file):
    """Closing the page loses nothing; a killed workbench is told, and goes on where it was."""
    page.open(workbench.address)
    page.until("the page has it again", lambda: len(page.state()["nodes"]) == 5)
    page.press("#undo")
    page.settled(5)
    before = file.with_suffix(".edits").read_bytes()
    workbench.end(signal.SIGKILL)
    page.press("#undo")
    page.until("that it is gone is told", lambda: "does not answer" in page.text("#notices"))
    tests.check("the file is as it was", file.with_suffix(".edits").read_bytes() == before)
    with Workbench(file) as again:
        page.open(again.address)
        page.until("the steps are there", lambda: len(page.state()["steps"]) == 5)
        page.press("#redo")
        page.settled(6)
        tests.check("and what was undone", len(page.state()["nodes"]) == 5 and page.text("#tree") != "")
        file.with_suffix(".edits").write_text("drop n0\n")
        page.script("window.dispatchEvent(new Event('focus'))")
        page.until("a change outside is told", lambda: "changed by another program" in page.text("#notices"))
        page.press("#reread")
        page.settled(1)


def check_conflict(tests):
    """Where no tree is found, the conflict is told and shown."""
    folder = tests.place("conflict")
    for name in ("Kinds.java", "kinds.edits"):
        shutil.copy(EXAMPLES / name, folder / name)
    with Workbench(folder / "Kinds.java", folder / "kinds.edits") as workbench, Page() as page:
        page.open(workbench.address)
        page.until("no tree", lambda: page.text("#tree") == "tree: none")
        page.press("#tree")
        page.until("the conflict in words", lambda: "C_5 (n5) stands below both A_3 (n3) and B_4 (n4)" in page.text(
            "#view-tree"))
        page.press_text("Show it in the picture", "#view-tree")
        page.until("and in the picture", lambda: page.selected() == [3, 4, 5]
            and len(page.all("#boxes .node.refused")) == 3)
        page.tab("java")
        page.until("no Java is written", lambda: "no tree is found" in page.text("#view-java"))
        tests.check("a bound script is opened whole", len(page.state()["steps"]) == 2)


def check_plans(tests):
    """A proposal is applied by three clicks, and gives what the commands give; so does the change of the old text."""
    if not has_tool("propose") or not has_tool("plan"):
        print("left out: proposals in the workbench; tools/propose is not there")
        return
    file = house(tests, "plans")
    plan, script = file.with_suffix(".plan"), file.with_name("by-plan.edits")
    plan.write_bytes(tool("propose", file))
    script.write_bytes(tool("plan", file, plan))
    with Workbench(file) as workbench, Page(1920, 1080) as page:
        page.open(workbench.address)
        page.tab("proposals")
        page.press("#propose")
        page.until("a proposal", lambda: "class Lamp: Device.on" in page.one("#plan-text").get_attribute("value"))
        page.press("#apply-plan")
        page.settled(1)
        got = edits_in(file.with_suffix(".edits").read_text())
        tests.check("the proposal's script is that of tools/plan", got == edits_in(script.read_text()), "\n".join(got))
        page.press("#plan-of")
        page.until("the plan of what is shown", lambda: "exactly the types that are shown" in page.text("#plan-said"))
        tests.check("it names what stands there", "class Heater: Device.wanted" in page.one("#plan-text").get_attribute(
            "value"))
        if has_tool("patch"):
            check_patched(tests, page, file, script)
        page.tab("proposals")
        page.one("#plan-text").clear()
        page.one("#plan-text").send_keys("class Lamp: Device.nothing")
        page.press("#apply-plan")
        page.until("a bad plan is told with its line", lambda: page.text("#plan-fault").startswith("plan:1:"))
        page.press("#undo")
        page.settled(0)
        check_opened_plan(tests, file, plan)


def check_opened_plan(tests, file, plan):
    """A plan on the command line becomes a script of its name, which must not be there."""
    words = (file, plan)
    file.with_suffix(".edits").unlink()
    with Workbench(*words) as workbench:
        tests.check("a plan is opened", workbench.ask("api/state")[1].count('"name": "Lamp"') == 1, workbench.said)
        tests.check("as a script beside it", "type n11 Lamp" in plan.with_suffix(".edits").read_text())
    with Workbench(*words) as workbench:
        tests.check("a script that is there is not written over", "is there already" in workbench.said
            and not workbench.address, workbench.said)


def check_patched(tests, page, file, script):
    """The Java as a change of the old text is that of tools/patch."""
    new = file.with_name("patched.java")
    tool("patch", "-o", new, file, script)
    page.tab("java")
    page.until("the old text, changed", lambda: page.all("#diff tr.same")
        and page.one("#java-form").get_attribute("value") == "patched")
    shown = page.script(
        "return [...document.querySelectorAll('#diff tr')].filter((it) => it.children[2].textContent)"
        ".map((it) => it.children[3].textContent).join('\\n')")
    tests.check("the change of the old text is that of tools/patch", shown == new.read_text().rstrip("\n"), shown[:600])


def tool(name, *words):
    return subprocess.run([sys.executable, str(HERE / "tools" / name), *map(str, words)], capture_output=True).stdout


PARTS = [check_first_sight, check_refused, check_tutorial, check_conflict, check_plans]
