"""A browser with the page in it, from a file on the disk, and ways to draw on it."""

import os
import re
import signal
import sys
import tempfile
import unittest
from pathlib import Path

from selenium import webdriver
from selenium.common.exceptions import TimeoutException
from selenium.webdriver.chrome.service import Service
from selenium.webdriver.common.action_chains import ActionChains
from selenium.webdriver.common.actions.action_builder import ActionBuilder
from selenium.webdriver.common.actions.pointer_input import PointerInput
from selenium.webdriver.common.by import By
from selenium.webdriver.support.ui import WebDriverWait

HERE = Path(__file__).resolve().parent
WEB = HERE.parent
ROOT = WEB.parent
sys.path.insert(0, str(WEB))

import inline  # noqa: E402

LIBRARY = ROOT / "target/wasm32/robequarry.wasm"
SCREENSHOTS = os.environ.get("ROBEQUARRY_SCREENSHOTS")

# Seconds. The page comes to what a test waits for long before this, on a busy machine too; a test that waits for something else fails.
WAIT = 30

# Seconds. No script in the page takes as long as the first, and no class of tests as long as the second; what hangs ends then.
SCRIPT = 300
LONGEST = 3600

PLUS = [(1, 0), (0, 1), (1, 1), (2, 1), (1, 2)]
DENTED = [(0, 0), (1, 0), (2, 0), (0, 1), (0, 2)]
RUN = re.compile(r"M(\d+) (\d+)h(\d+)v1h-(\d+)z")

ARGUMENTS = (
    "--headless=new", "--no-sandbox", "--disable-gpu", "--hide-scrollbars", "--disable-dev-shm-usage", "--no-first-run",
    "--disable-background-networking", "--disable-component-update", "--disable-sync", "--proxy-server=127.0.0.1:1",
    "--touch-events=enabled",
)


def table():
    return inline.messages(WEB / "messages.js")


def record(start, letters):
    """The record of an outline, its letters given as digits."""
    body = bytes(int(letter) for letter in letters)
    return b"\x4b\x4f" + bytes(start) + len(body).to_bytes(2, "little") + body


def outlines(name):
    """Start, letters and name of each outline of a text that ships."""
    found = []
    for line in (ROOT / "host/program" / name).read_text().splitlines():
        outline, _, words = line.partition("#")
        fields = outline.split()
        if fields:
            found.append(((int(fields[0]), int(fields[1])), fields[2], words.strip()))
    return found


def too_long(*_):
    raise TimeoutError(f"no end after {LONGEST} seconds")


def start_browser(folder):
    """A browser that asks no network: its proxy is an address where nobody listens."""
    options = webdriver.ChromeOptions()
    options.binary_location = os.environ.get("CHROMIUM", "/usr/bin/chromium")
    for argument in (*ARGUMENTS, f"--user-data-dir={folder}/profile"):
        options.add_argument(argument)
    options.add_experimental_option("prefs", {"download.default_directory": str(folder), "download.prompt_for_download": False})
    options.set_capability("goog:loggingPrefs", {"browser": "ALL"})
    browser = webdriver.Chrome(service=Service(os.environ.get("CHROMEDRIVER", "/usr/bin/chromedriver")), options=options)
    browser.set_script_timeout(SCRIPT)
    return browser


# Picks the example of a name.
PICK = """const list = document.getElementById("example");
    list.value = [...list.options].find((option) => option.textContent === arguments[0]).value;
    list.dispatchEvent(new Event("change"))"""

# What the page shows, for a test that waited in vain.
SHOWN = """const shown = ["drawn", "record", "notices"].map((id) => [id, document.getElementById(id)?.textContent ?? null]);
    return Object.fromEntries([["ready", document.documentElement.dataset.ready ?? null], ...shown])"""


class PageTest(unittest.TestCase):
    """Each test has the page fresh, at 1280 by 720."""

    size = (1280, 720)

    @classmethod
    def setUpClass(cls):
        # Ctrl-C ends the run, also where it was started with the signal ignored.
        signal.signal(signal.SIGINT, signal.default_int_handler)
        signal.signal(signal.SIGALRM, too_long)
        signal.alarm(LONGEST)
        folder = tempfile.TemporaryDirectory(ignore_cleanup_errors=True)
        cls.addClassCleanup(folder.cleanup)
        cls.folder = Path(folder.name)
        cls.file = cls.folder / "robequarry.html"
        cls.file.write_text(inline.page(LIBRARY))
        cls.blank = cls.folder / "blank.html"
        cls.blank.write_text("<!doctype html><title>blank</title>")
        cls.browser = start_browser(cls.folder)
        cls.addClassCleanup(cls.browser.quit)

    def setUp(self):
        self.look("light")
        self.resize(*self.size)
        self.forget()
        self.open()

    def tearDown(self):
        told = [entry for entry in self.browser.get_log("browser") if entry["level"] == "SEVERE"]
        self.assertEqual(told, [])

    def forget(self, **kept):
        """Nothing else is kept on the device. That is done on another page from the disk: this page would keep its work as it goes."""
        self.browser.get(self.blank.as_uri())
        self.script("localStorage.clear(); sessionStorage.clear(); Object.assign(localStorage, arguments[0])", kept)

    def open(self):
        self.browser.get(self.file.as_uri())
        self.until(lambda: self.script("return document.documentElement.dataset.ready") == "yes")

    def resize(self, width, height):
        metrics = {"width": width, "height": height, "deviceScaleFactor": 1, "mobile": False}
        self.browser.execute_cdp_cmd("Emulation.setDeviceMetricsOverride", metrics)

    def look(self, scheme, media=""):
        features = [{"name": "prefers-color-scheme", "value": scheme}]
        self.browser.execute_cdp_cmd("Emulation.setEmulatedMedia", {"media": media, "features": features})

    def script(self, words, *arguments):
        return self.browser.execute_script(words, *arguments)

    def until(self, fact, wanted="what the test waits for"):
        """Waits until something is so. Where it does not come, the test fails with what the page shows."""
        try:
            return WebDriverWait(self.browser, WAIT, poll_frequency=0.05).until(lambda _: fact())
        except TimeoutException:
            shown = self.script(SHOWN)
        return self.fail(f"{wanted} did not come in {WAIT} seconds; the page shows {shown}")

    def by(self, name):
        return self.browser.find_element(By.ID, name)

    def all(self, selector):
        return self.browser.find_elements(By.CSS_SELECTOR, selector)

    def text(self, name):
        return self.script("return document.getElementById(arguments[0]).textContent", name)

    def says(self, words):
        """The verdict on the drawing: the headline, or below it where the panel is about something else."""
        self.assertIn(words, self.text("drawn"))

    def headline(self, words):
        self.assertEqual(self.text("said"), words)

    def instead(self):
        """Takes the completion over, with the question before it answered."""
        self.press("instead")
        self.press("ask-yes")

    def told(self):
        """What the notices say."""
        return self.script("return [...document.querySelectorAll('#notices p')].map((p) => p.textContent).join('\\n')")

    def press(self, name):
        self.by(name).click()

    def pick(self, name):
        self.panel("draw")
        self.script(PICK, name)

    def panel(self, name):
        self.press(f"tab-{name}")

    def path(self, name):
        return self.script("return document.querySelector(arguments[0]).getAttribute('d')", f"#chart path[class='{name}']")

    def cells(self, name="cells"):
        """The cells under a path of the chart."""
        found = set()
        for col, row, width, _ in RUN.findall(self.path(name)):
            found |= {(c, int(row)) for c in range(int(col), int(col) + int(width))}
        return found

    def marked_at(self, selector):
        script = "return [...document.querySelectorAll(arguments[0])].map((e) => e.dataset.cell)"
        return [tuple(map(int, cell.split())) for cell in self.script(script, selector)]

    def point(self, cell, part=(0.5, 0.5)):
        """A point of a cell on the screen; its middle, if nothing else is said."""
        script = """const plot = document.querySelector("#chart .plot").getScreenCTM();
            return [plot.a * arguments[0] + plot.e, plot.d * arguments[1] + plot.f]"""
        return [round(n) for n in self.script(script, cell[0] + part[0], cell[1] + part[1])]

    def mouse(self):
        return ActionBuilder(self.browser, duration=0)

    def click(self, cell):
        act = self.mouse()
        act.pointer_action.move_to_location(*self.point(cell)).pointer_down().pointer_up()
        act.perform()

    def hover(self, cell, part=(0.5, 0.5)):
        act = self.mouse()
        act.pointer_action.move_to_location(*self.point(cell, part))
        act.perform()

    def wheel(self, at):
        """Zooms in at a point of the screen."""
        script = """const at = { deltaY: -100, clientX: arguments[0], clientY: arguments[1], cancelable: true };
            document.getElementById("chart").dispatchEvent(new WheelEvent("wheel", at))"""
        self.script(script, *at)

    def drag(self, *cells):
        act = self.mouse()
        first, *rest = [self.point(cell) for cell in cells]
        act.pointer_action.move_to_location(*first).pointer_down()
        for at in rest:
            act.pointer_action.move_to_location(*at)
        act.pointer_action.pointer_up()
        act.perform()

    def draw(self, cells):
        for cell in cells:
            self.click(cell)

    def tool(self, value):
        self.script("document.querySelector(`input[value=${arguments[0]}]`).click()", value)

    def finger(self, name="finger"):
        return PointerInput("touch", name)

    def keys(self, *keys):
        ActionChains(self.browser, duration=0).send_keys(*keys).perform()

    def with_key(self, key, *keys):
        ActionChains(self.browser, duration=0).key_down(key).send_keys(*keys).key_up(key).perform()

    def picture(self, name):
        if SCREENSHOTS:
            self.browser.save_screenshot(str(Path(SCREENSHOTS) / name))
