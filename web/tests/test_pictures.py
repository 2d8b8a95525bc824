"""Writes the documents' pictures of the page: `web/test --screenshots docs/pictures test_pictures`."""

import unittest
from pathlib import Path

from support import PICK, SCREENSHOTS, PageTest


@unittest.skipUnless(SCREENSHOTS, "no folder for pictures")
class Pictures(PageTest):
    def save(self, name):
        # No pointer over a button, and no focus on one.
        self.script("document.activeElement.blur()")
        self.browser.save_screenshot(str(Path(SCREENSHOTS) / f"page-{name}.png"))

    def years(self):
        self.pick("A block that is taken")
        self.panel("years")
        self.press("years-keep")
        self.tool("erase")
        self.tool("rectangle")
        self.drag((57, 43), (61, 62))
        self.tool("paint")
        self.tool("brush")

    def units(self):
        for name, words in zip(("low", "high", "unit"), ("0", "127", "deg")):
            self.by(f"column-{name}").send_keys(words)
        for name, words in zip(("low", "high", "unit"), ("0", "1270", "N")):
            self.by(f"row-{name}").send_keys(words)

    def test_desktop(self):
        self.pick("A block that is taken")
        self.press("sheet-add")
        self.units()
        self.script("document.getElementById('panel-draw').scrollTop = 0")
        self.save("taken")
        self.pick("A block with a dent")
        self.save("dent")
        self.look("dark")
        self.save("dark")
        self.look("light")
        self.panel("lesson")
        self.press("lesson-again")
        self.press("lesson-on")
        self.press("lesson-on")
        self.instead()
        self.press("lesson-on")
        self.save("lesson")
        self.pick("A block that is taken")
        self.panel("readings")
        for name, number in (("angle", "60.501"), ("shin", "54.498")):
            self.by(name).clear()
            self.by(name).send_keys(number)
        self.save("readings")
        self.years()
        self.save("years")
        self.panel("speeds")
        self.press("pile-bad")
        self.press("lacks-9")
        self.save("speeds")
        self.pick("H3: a plus")
        self.panel("holder")
        for call in ("close", "send", "query", "row"):
            self.press(f"call-{call}")
        self.press("place-1-2")
        self.press("call-begin")
        self.press("call-add")
        self.save("holder")

    def test_tablet(self):
        self.resize(800, 1280)
        self.open()
        self.pick("A block with a notch")
        self.save("tablet")
        self.years()
        self.look("dark")
        self.save("tablet-dark")

    def test_phone(self):
        self.resize(390, 800)
        self.open()
        self.script(PICK, "A block with a dent")
        self.save("phone")

    def test_german(self):
        self.script("const list = document.getElementById('language'); list.value = 'de'; list.dispatchEvent(new Event('change'))")
        self.until(lambda: self.script("return document.documentElement.lang + document.documentElement.dataset.ready") == "deyes")
        self.pick("Ein Block mit einer Delle")
        self.press("instead")
        self.save("german")

    def test_print(self):
        """The printed form, as the screen shows it with the style of print."""
        self.pick("A block that is taken")
        self.press("sheet-add")
        self.units()
        self.resize(794, 1123)
        self.look("light", "print")
        self.script("dispatchEvent(new Event('beforeprint'))")
        self.browser.execute_async_script("setTimeout(arguments[0], 300)")
        self.save("print")


if __name__ == "__main__":
    unittest.main()
