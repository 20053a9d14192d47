"""A workbench and a headless Chromium that the tests drive."""
import json
import os
import re
import signal
import subprocess
import sys
import time
import urllib.error
import urllib.request
from pathlib import Path

from kaba_tools import HERE

CHROMIUM, DRIVER = "/usr/bin/chromium", "/usr/bin/chromedriver"
SECONDS = 180  # on a machine that is busy, or with a program that was compiled before its proof


class Workbench:
    """A running tools/workbench, with what it printed and its address."""

    def __init__(self, *words):
        words = [sys.executable, str(HERE / "tools" / "workbench"), *map(str, words)]
        self.process = subprocess.Popen(words, stdin=subprocess.DEVNULL, stdout=subprocess.PIPE,
            stderr=subprocess.STDOUT, text=True)
        self.said, self.address = "", ""
        for line in self.process.stdout:
            self.said += line
            found = re.match(r"open (http://\S+/)\n", line)
            if found:
                self.address = found[1]
                break

    def __enter__(self):
        return self

    def __exit__(self, *_):
        self.end(signal.SIGTERM)

    def end(self, how):
        if self.process.poll() is None:
            self.process.send_signal(how)
        self.process.stdout.close()
        return self.process.wait(timeout=SECONDS)

    def ask(self, path, value=None, headers=(), address=None):
        """The status and the text of one request; with a value it is a question in JSON."""
        body = value if value is None or isinstance(value, bytes) else json.dumps(value).encode()
        request = urllib.request.Request((address or self.address) + path, data=body,
            headers={"Content-Type": "application/json", **dict(headers)})
        try:
            with urllib.request.urlopen(request, timeout=SECONDS) as answer:
                return answer.status, answer.read().decode()
        except urllib.error.HTTPError as refused:
            with refused:
                return refused.code, refused.read().decode()


def browser_is_there():
    return os.path.exists(CHROMIUM) and os.path.exists(DRIVER)


class Page:
    """A page of the workbench in a browser, as a person has it: with a mouse and keys."""

    def __init__(self, width=1280, height=800, downloads=None):
        from selenium import webdriver
        from selenium.webdriver.chrome.service import Service

        options = webdriver.ChromeOptions()
        options.binary_location = CHROMIUM
        for word in ("--headless=new", "--no-sandbox", "--disable-gpu", "--disable-dev-shm-usage", "--no-proxy-server",
            "--disable-background-networking"):
            options.add_argument(word)
        options.set_capability("goog:loggingPrefs", {"browser": "ALL", "performance": "ALL"})
        if downloads:
            options.add_experimental_option("prefs", {"download.default_directory": str(downloads)})
        self.driver = webdriver.Chrome(options=options, service=Service(DRIVER))
        self.size(width, height)

    def __enter__(self):
        return self

    def __exit__(self, *_):
        self.driver.quit()

    def size(self, width, height):
        metrics = {"width": width, "height": height, "deviceScaleFactor": 1, "mobile": False}
        self.driver.execute_cdp_cmd("Emulation.setDeviceMetricsOverride", metrics)

    def scheme(self, name):
        self.driver.execute_cdp_cmd("Emulation.setEmulatedMedia",
            {"features": [{"name": "prefers-color-scheme", "value": name}]})

    def open(self, address):
        self.driver.get(address)
        self.until("the types are there", lambda: self.all("#boxes .node"))

    def script(self, text, *given):
        return self.driver.execute_script(text, *given)

    def all(self, selector):
        return self.driver.find_elements("css selector", selector)

    def one(self, selector):
        return self.driver.find_element("css selector", selector)

    def text(self, selector):
        """The text of an element as it stands in the page, seen or not."""
        found = self.all(selector)
        return found[0].get_attribute("textContent") if found else ""

    def until(self, what, holds, seconds=SECONDS):
        """Waits until something holds, and gives it."""
        ends = time.monotonic() + seconds
        while time.monotonic() < ends:
            found = self.quietly(holds)
            if found:
                return found
            time.sleep(0.05)
        raise AssertionError(
            f"the page did not come to this: {what}; refusal: {self.text('#refusal')};"
            f" notices: {self.text('#notices')}")

    @staticmethod
    def quietly(holds):
        from selenium.common.exceptions import WebDriverException

        try:
            return holds()
        except WebDriverException:
            return None

    # What a person does.

    def actions(self):
        from selenium.webdriver.common.action_chains import ActionChains

        return ActionChains(self.driver, duration=60)

    def press(self, selector):
        """A click on what is there, once it can be clicked."""
        self.until(f"{selector} can be pressed", lambda: self.one(selector).is_enabled()
            and (self.one(selector).click() or True))

    def press_text(self, text, within="body"):
        """A click on the button with this text."""
        find = (
            "return [...document.querySelectorAll(arguments[0] + ' button')]"
            ".find((it) => it.textContent.trim().startsWith(arguments[1]) && !it.disabled)"
        )
        found = self.until(f"a button {text}", lambda: self.script(find, within, text))
        self.script("arguments[0].scrollIntoView({block: 'nearest'})", found)
        found.click()

    def see(self, number):
        """Brings a type into sight as a person would, by the search."""
        if not self.all(f"#n{number}") or not self.is_seen(number):
            self.press("#fit")
            self.until(f"n{number} is in the picture", lambda: self.all(f"#n{number}"))
        return self.one(f"#n{number}")

    def is_seen(self, number):
        return self.script(
            "const place = (id) => document.getElementById(id).getBoundingClientRect();"
            "const a = place('n' + arguments[0]), b = place('diagram');"
            "return a.left >= b.left && a.right <= b.right && a.top >= b.top && a.bottom <= b.bottom",
            number,
        )

    def choose(self, *numbers):
        """Clicks types in the picture, all but the first with Shift."""
        from selenium.webdriver.common.keys import Keys

        for k, number in enumerate(numbers):
            head = self.see(number).find_element("css selector", ".head, .box")
            chain = self.actions()
            if k:
                chain = chain.key_down(Keys.SHIFT)
            chain = chain.move_to_element(head).click()
            (chain.key_up(Keys.SHIFT) if k else chain).perform()
        self.until("they are selected", lambda: self.selected() == sorted(numbers))

    def drag(self, element, target):
        chain = self.actions().move_to_element(element).click_and_hold().move_by_offset(9, 6)
        chain.move_to_element(target).move_by_offset(1, 1).release().perform()

    def name_in_place(self, element, name):
        from selenium.webdriver.common.keys import Keys

        field = self.until("a field for the name", lambda: self.field_after_double_click(element))
        field.send_keys(Keys.CONTROL, "a")
        field.send_keys(name, Keys.ENTER)

    def field_after_double_click(self, element):
        """Two clicks are one double click where the machine is quick enough, so this may be tried again."""
        self.actions().double_click(element).perform()
        ends = time.monotonic() + 2
        while time.monotonic() < ends and not self.all("input.in-place"):
            time.sleep(0.05)
        return self.one("input.in-place")

    def tab(self, name):
        self.press(f"#tab-{name}")

    # What is seen.

    def selected(self):
        return sorted(self.script("return import('./store.js').then((it) => [...it.store.selected])"))

    def state(self):
        return self.script("return import('./store.js').then((it) => it.store.state)")

    def settled(self, count):
        """Waits until the script has so many steps and the picture is drawn."""
        self.until(f"{count} steps", lambda: len(self.state()["steps"]) == count and not self.all("body.busy"))
        self.script("return import('./diagram.js').then((it) => it.laid.ready)")
        self.script("return new Promise((done) => requestAnimationFrame(() => requestAnimationFrame(done)))")

    def faults(self):
        """What the browser complains of, and each request to another place than the page's own."""
        own = self.driver.current_url.split("/")[2]
        found = [it["message"] for it in self.driver.get_log("browser") if it["level"] == "SEVERE"]
        for it in self.driver.get_log("performance"):
            message = json.loads(it["message"])["message"]
            if message["method"] == "Network.requestWillBeSent":
                url = message["params"]["request"]["url"]
                if url.split("/")[2] != own and not url.startswith(("data:", "blob:")):
                    found.append(f"a request to {url}")
        return found


def wait_for_file(path, seconds=SECONDS):
    ends = time.monotonic() + seconds
    while not Path(path).is_file() and time.monotonic() < ends:
        time.sleep(0.05)
    return Path(path).read_bytes() if Path(path).is_file() else b""
