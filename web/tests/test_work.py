"""A wearer's work is safe: practice has a sheet of its own, names go with their outlines, windows do not overwrite each other."""

import json
import unittest

from support import DENTED, PLUS, PageTest, record


class Sheet(PageTest):
    def test_examples_and_tasks_leave_the_outline_as_it_is(self):
        self.draw(DENTED)
        self.by("name").send_keys("wearer 7")
        self.pick("H3: a plus")
        self.says("Taken, 4 edges")
        self.assertTrue(self.by("sheet").is_displayed())
        self.assertIn("Your outlines: 1", self.text("record"))
        self.assertFalse(self.by("name").is_enabled())
        self.click((5, 5))
        self.panel("lesson")
        self.press("lesson-again")
        self.press("lesson-on")
        self.press("sheet-back")
        self.assertFalse(self.by("sheet").is_displayed())
        self.assertIn("Begin", self.text("lesson-state"))
        self.panel("draw")
        self.assertEqual(self.cells(), set(DENTED))
        self.assertEqual(self.by("name").get_attribute("value"), "wearer 7")
        # What is saved is the wearer's, also from the sheet.
        self.pick("H3: a plus")
        path = self.folder / "block.fit"
        path.unlink(missing_ok=True)
        self.press("save-fitting")
        self.until(lambda: path.exists() and path.stat().st_size > 0, f"the download {path.name}")
        self.assertEqual(path.read_bytes(), record((0, 0), "111033003222"))
        self.script("document.querySelector('#notices button').click()")
        self.press("sheet-add")
        self.assertEqual(self.text("record"), "Outline 1 of 2, counted from 0.")
        self.assertEqual(self.cells(), set(PLUS))
        self.assertEqual(self.by("name").get_attribute("value"), "H3: a plus")

    def test_nothing_of_the_sheet_is_saved_or_removed_as_an_outline(self):
        self.draw(PLUS)
        self.assertTrue(self.by("save-image").is_enabled())
        self.pick("H2: a bar")
        self.assertFalse(self.by("save-image").is_enabled())
        self.assertFalse(self.by("remove").is_enabled())
        self.press("save-fitting")
        self.assertIn("The practice sheet is not in it.", self.told())
        self.script("document.getElementById('notices').replaceChildren()")
        self.press("sheet-back")
        self.assertTrue(self.by("save-image").is_enabled())
        self.assertTrue(self.by("remove").is_enabled())
        self.assertEqual(self.cells(), set(PLUS))

    def test_clear_and_new_clear_the_name(self):
        for button in ("clear", "add"):
            self.draw(PLUS)
            self.by("name").send_keys("wearer 8")
            self.press(button)
            self.assertEqual(self.by("name").get_attribute("value"), "")
            self.draw([(5, 5)])
            self.assertEqual(self.by("name").get_attribute("value"), "")
            self.press("clear")

    def test_a_name_belongs_to_its_outline_wherever_the_focus_is(self):
        """On some tablets a button does not take the focus from the field."""
        self.draw(PLUS)
        self.by("name").send_keys("wearer 1 ")
        self.script("document.getElementById('add').click()")
        self.assertEqual(self.script("return document.activeElement.id"), "name")
        self.assertEqual(self.by("name").get_attribute("value"), "")
        self.by("name").send_keys("wearer 2")
        self.script("document.getElementById('back').click()")
        self.assertEqual(self.by("name").get_attribute("value"), "wearer 1")
        # A space at the end is typed on.
        self.by("name").send_keys(" b")
        self.assertEqual(self.by("name").get_attribute("value"), "wearer 1 b")

    def test_last_year_of_the_sheet_is_not_the_wearers(self):
        self.draw(PLUS)
        self.panel("years")
        self.press("years-keep")
        self.pick("H2: a bar")
        self.panel("years")
        self.headline("There is no block of last year yet")
        self.press("years-keep")
        self.headline("Both years have the same cells")
        self.press("sheet-back")
        self.headline("Both years have the same cells")
        self.assertEqual(self.cells("ghost"), set(PLUS))

    def test_outlines_can_be_removed(self):
        self.draw(PLUS)
        self.press("add")
        self.draw(DENTED)
        self.press("back")
        self.press("remove")
        self.assertEqual(self.text("record"), "Outline 0 of 1, counted from 0.")
        self.assertEqual(self.cells(), set(DENTED))
        self.press("remove")
        self.says("No cell is marked")
        self.press("undo")
        self.press("undo")
        self.assertEqual(self.text("record"), "Outline 0 of 2, counted from 0.")
        self.assertEqual(self.cells(), set(PLUS))

    def test_an_example_of_speeds_is_asked_for(self):
        self.panel("speeds")
        self.draw(PLUS)
        self.press("pile-good")
        self.assertIn("takes the place of all sixteen speeds", self.text("ask-text"))
        self.press("ask-no")
        self.assertEqual(self.cells(), set(PLUS))


# What pages of 0.3.0 kept: one state at one place.
OLDER = {
    "state": {
        "records": [
            {"name": "Frau M", "start": [0, 1], "letters": [int(c) for c in "101030323212"]},
            {"name": "half", "runs": [[0, 0, 0], [3, 3, 3]]},
        ],
        "at": 0, "file": "clinic.txt", "last": {"name": "", "start": [0, 0], "letters": [1, 0, 3, 2]}, "layers": [None] * 16, "layer": 2,
    },
    "panel": "draw", "cursor": [1, 1], "why": True, "panels": {"lesson": {"at": 1, "begun": False, "done": [0]}},
}


class Device(PageTest):
    def setUp(self):
        super().setUp()
        self.first = self.browser.current_window_handle

    def tearDown(self):
        for handle in self.browser.window_handles:
            if handle != self.first:
                self.browser.switch_to.window(handle)
                self.browser.close()
        self.browser.switch_to.window(self.first)
        self.script("localStorage.clear(); sessionStorage.clear()")
        super().tearDown()

    def ready(self):
        self.until(lambda: self.script("return document.readyState === 'complete' && document.documentElement.dataset.ready") == "yes")

    def reload(self):
        self.browser.refresh()
        self.ready()

    def note(self):
        """The note of what was kept last."""
        return self.script("return localStorage.getItem('robequarry-note-' + localStorage.getItem('robequarry-latest'))")

    def kept(self, work):
        """Some work, and that it is kept."""
        before = self.note()
        work()
        self.until(lambda: self.note() != before)

    def second(self):
        self.browser.switch_to.new_window("tab")
        self.resize(*self.size)
        self.open()
        return self.browser.current_window_handle

    def window(self, handle):
        self.browser.switch_to.window(handle)

    def choose(self, words):
        found = "[...document.querySelectorAll('#notices button')].find((b) => b.textContent === arguments[0])"
        self.until(lambda: self.script(f"return {found} !== undefined", words))
        self.script(f"{found}.click()", words)

    def others(self):
        return self.script("return [...document.querySelectorAll('#others span')].map((e) => e.textContent)")

    def other(self, words):
        self.script("[...document.querySelectorAll('#others button')].find((b) => b.textContent === arguments[0]).click()", words)

    def keys_left(self):
        return self.script("return Object.keys(localStorage).filter((key) => key.startsWith('robequarry'))")

    def wait(self):
        """The time after which work is kept has passed."""
        self.browser.execute_async_script("setTimeout(arguments[0], 700)")

    def test_forget(self):
        self.draw(PLUS)
        self.panel("speeds")
        self.press("pile-good")
        self.panel("draw")
        self.until(lambda: self.note() is not None)
        self.press("forget")
        self.assertIn("It cannot be undone", self.told())
        self.choose("Remove everything")
        self.ready()
        self.until(lambda: self.text("drawn") == "This drawing: No cell is marked")
        self.assertFalse(self.by("undo").is_enabled())
        self.assertEqual(self.keys_left(), [])
        self.assertEqual(self.script("return Object.keys(sessionStorage)"), [])
        self.panel("speeds")
        self.headline("No speed has a block")

    def test_what_is_forgotten_stays_forgotten_with_a_second_window_open(self):
        self.kept(lambda: self.draw(PLUS))
        second = self.second()
        self.assertEqual(self.cells(), set(PLUS))
        self.window(self.first)
        self.press("forget")
        self.choose("Remove everything")
        self.ready()
        self.window(second)
        self.until(lambda: "Another window has removed this work from this device." in self.told())
        # The second window brings nothing back by itself: not by drawing, not by closing.
        self.click((3, 1))
        self.wait()
        self.assertEqual(self.keys_left(), [])
        self.browser.close()
        self.window(self.first)
        self.assertEqual(self.keys_left(), [])
        self.reload()
        self.says("No cell is marked")

    def test_what_is_forgotten_can_be_kept_by_choice_or_removed_here_too(self):
        self.kept(lambda: self.draw(PLUS))
        second = self.second()
        self.click((3, 1))
        self.wait()
        self.window(self.first)
        self.press("forget")
        self.choose("Remove everything")
        self.ready()
        self.window(second)
        self.choose("Keep it on this device")
        self.assertNotEqual(self.keys_left(), [])
        self.reload()
        self.assertEqual(self.cells(), {*PLUS, (3, 1)})
        self.window(self.first)
        self.press("forget")
        self.choose("Remove everything")
        self.ready()
        self.window(second)
        self.choose("Remove it here, too")
        self.ready()
        self.until(lambda: self.text("drawn") == "This drawing: No cell is marked")
        self.assertEqual(self.keys_left(), [])

    def test_two_windows_keep_both(self):
        """The second goes on with the work of the first, and the first then keeps its own beside it. Neither is lost, whichever closes."""
        self.kept(lambda: self.draw(PLUS))
        second = self.second()
        self.assertEqual(self.cells(), set(PLUS))
        self.kept(lambda: self.click((3, 1)))
        self.window(self.first)
        self.until(lambda: "Another window of this page has gone on with this work" in self.told())
        self.kept(lambda: self.click((1, 3)))
        self.assertEqual(len(self.others()), 1)
        self.window(second)
        self.kept(lambda: self.click((4, 1)))
        self.browser.close()
        self.window(self.first)
        self.reload()
        self.assertEqual(self.cells(), {*PLUS, (1, 3)})
        self.assertIn("This device keeps other work as well", self.told())
        self.choose("Look at it")
        self.assertRegex(self.others()[0], r"^1 outline, kept 20\d\d-\d\d-\d\d \d\d:\d\d$")
        self.other("Show")
        self.ready()
        self.until(lambda: self.cells() == {*PLUS, (3, 1), (4, 1)})
        # And back: what is shown is exchanged, and nothing is lost by that.
        self.other("Show")
        self.ready()
        self.until(lambda: self.cells() == {*PLUS, (1, 3)})
        self.other("Remove")
        self.assertIn("It cannot be undone", self.told())
        self.choose("Remove")
        self.assertEqual(self.others(), [])
        self.reload()
        self.assertEqual(self.cells(), {*PLUS, (1, 3)})
        self.assertEqual(self.told(), "")

    def test_the_other_work_can_be_shown(self):
        self.kept(lambda: self.draw(PLUS))
        self.second()
        self.kept(lambda: self.click((3, 1)))
        self.window(self.first)
        self.choose("Show the other work")
        self.ready()
        self.until(lambda: self.cells() == {*PLUS, (3, 1)})
        # Nothing was drawn here, so there is nothing else to keep.
        self.assertEqual(self.others(), [])

    def test_work_that_is_too_large_takes_no_other_with_it(self):
        """What the other window keeps stays, and so does what was kept before: it is offered, and not shown as if it were drawn now."""
        self.kept(lambda: self.draw(PLUS))
        second = self.second()
        self.kept(lambda: self.click((3, 1)))
        self.window(self.first)
        self.kept(lambda: self.click((1, 3)))
        large = self.folder / "large.txt"
        large.write_text("0 0 1032\n" * 120_000)
        self.by("load").send_keys(str(large))
        self.until(lambda: "Outline 0 of 120000" in self.text("record"))
        self.until(lambda: "does not keep your work over a reload" in self.told())
        self.assertEqual(len(self.others()), 1)
        self.leave()
        self.says("No cell is marked")
        self.assertIn("This device keeps other work as well", self.told())
        self.assertEqual(len(self.others()), 2)
        self.window(second)
        self.reload()
        self.assertEqual(self.cells(), {*PLUS, (3, 1)})

    def leave(self):
        """Goes on to the page again; where the browser asks, it is told to go."""
        self.browser.execute_cdp_cmd("Page.navigate", {"url": "about:blank"})
        try:
            self.browser.switch_to.alert.accept()
        except Exception:
            pass
        self.open()

    def begin_with(self, content):
        """The page with something at the place of older pages."""
        self.forget(**{"robequarry-page-1": content})
        self.open()

    def test_work_of_an_older_page_is_read(self):
        self.begin_with(json.dumps(OLDER))
        self.assertEqual(self.cells(), set(PLUS))
        self.assertEqual(self.by("name").get_attribute("value"), "Frau M")
        self.assertEqual(self.text("record"), "Outline 0 of 2, counted from 0, in clinic.txt.")
        self.press("on")
        self.assertEqual(self.cells(), {(0, 0), (3, 3)})
        self.panel("years")
        self.assertEqual(self.cells("ghost"), {(0, 0)})
        self.panel("draw")
        # It moves to this page's own place, once.
        self.kept(lambda: self.click((4, 3)))
        self.assertNotIn("robequarry-page-1", self.keys_left())
        self.reload()
        self.assertEqual(self.cells(), {(0, 0), (3, 3), (4, 3)})
        self.assertEqual(self.others(), [])

    def test_work_that_cannot_be_read_is_told_and_offered_as_a_file(self):
        newer = json.dumps({"format": 99, "work": "of a later page"})
        for content in ("{", '{"state": {}}', newer):
            with self.subTest(content):
                self.begin_with(content)
                self.says("No cell is marked")
                self.assertIn("This device keeps work that this page cannot read.", self.told())
                # It stays there while something else is drawn and kept.
                self.kept(lambda: self.draw(PLUS))
                self.reload()
                self.assertEqual(self.cells(), set(PLUS))
                self.assertIn("This device keeps work that this page cannot read.", self.told())
                path = self.folder / "robequarry-kept.json"
                path.unlink(missing_ok=True)
                self.other("Save as a file")
                self.until(lambda: path.exists() and path.stat().st_size > 0, f"the download {path.name}")
                self.assertEqual(path.read_text(), content)
                self.other("Remove")
                self.choose("Remove")
                self.assertEqual(self.others(), [])


class Units(PageTest):
    def fill(self, **values):
        self.panel("draw")
        for name, value in values.items():
            field = self.by(name.replace("_", "-"))
            field.clear()
            field.send_keys(value)

    def labels(self, kind):
        script = "return [...document.querySelectorAll(`#chart text${arguments[0]}`)].map((e) => e.textContent).filter(Boolean)"
        return self.script(script, kind)

    def test_axes_pointer_print_and_device(self):
        self.draw(PLUS)
        self.fill(column_low="-5", column_high="122", column_unit="deg", row_low="0", row_high="1270", row_unit="N")
        self.assertEqual(self.labels(".axis"), ["column: knee angle, deg", "row: shin load, N"])
        self.assertIn("-5.0", self.labels(".unit"))
        self.hover((10, 2))
        self.assertEqual(self.text("where"), "Cell (10, 2), 0.0\u00a0deg, 10\u00a0N: not marked. This page says: outside.")
        self.assertEqual(self.text("form-units"), "columns -5.0\u00a0deg to 122.0\u00a0deg; rows 0\u00a0N to 1270\u00a0N")
        self.panel("readings")
        self.assertIn("deg", self.text("reading-units"))
        self.browser.refresh()
        self.until(lambda: self.script("return document.documentElement.dataset.ready") == "yes")
        self.panel("draw")
        self.assertEqual(self.by("column-high").get_attribute("value"), "122")
        # The other joint has its own.
        self.script("document.querySelector('input[value=ankle]').click()")
        self.assertEqual(self.by("column-high").get_attribute("value"), "")
        self.assertEqual(self.labels(".axis"), ["column: ankle angle", "row: ankle load"])
        self.panel("holder")
        self.press("place-0-1")
        self.assertEqual(self.labels(".axis")[0], "column: knee angle, deg")
        self.press("place-1-1")
        self.assertEqual(self.labels(".axis")[0], "column: ankle angle")

    def test_they_are_kept_with_the_file(self):
        self.draw(PLUS)
        self.fill(column_low="0", column_high="127", column_unit="deg", row_low="0", row_high="1270", row_unit="N")
        path = self.folder / "block.txt"
        path.unlink(missing_ok=True)
        self.press("save-text")
        self.until(lambda: path.exists() and path.stat().st_size > 0, f"the download {path.name}")
        line = "# units party=knee angle=0..127 angle-unit=deg load=0..1270 load-unit=N\n"
        self.assertEqual(path.read_text(), line + "0 1 101030323212\n")
        other = self.folder / "other.txt"
        other.write_text("# units party=ankle angle=-20.5..30 angle-unit=Grad\n" + line.replace("127 ", "254 ") + "0 0 1032\n")
        self.by("load").send_keys(str(other))
        self.until(lambda: "other.txt" in self.text("record"))
        self.assertEqual(self.by("column-high").get_attribute("value"), "254")
        self.script("document.querySelector('input[value=ankle]').click()")
        self.assertEqual(self.by("column-low").get_attribute("value"), "-20.5")
        self.assertEqual(self.by("column-unit").get_attribute("value"), "Grad")
        self.assertEqual(self.by("row-high").get_attribute("value"), "")

    def choose(self, words):
        self.script("[...document.querySelectorAll('#notices button')].find((b) => b.textContent === arguments[0]).click()", words)

    def test_a_file_has_its_own_units_or_none(self):
        self.draw(PLUS)
        self.fill(column_low="0", column_high="127", column_unit="deg")
        for name, content in (("next.fit", record((0, 0), "1032")), ("next.txt", b"0 0 1032\n")):
            path = self.folder / name
            path.write_bytes(content)
            self.by("load").send_keys(str(path))
            self.until(lambda: name in self.text("record"))
            self.assertEqual(self.by("column-high").get_attribute("value"), "")
            self.assertEqual(self.text("form-units"), "columns cells 0 to 254; rows cells 0 to 254")
            self.assertEqual(self.told(), f"{name} has no units, so the axes have none now.")
            self.choose("Use the units from before")
            self.assertEqual(self.by("column-high").get_attribute("value"), "127")
        # A file with units of one joint has none of the other.
        self.script("document.querySelector('input[value=ankle]').click()")
        self.fill(column_low="-20", column_high="30", column_unit="deg")
        path = self.folder / "own.txt"
        path.write_text("# units party=knee load=0..1270 load-unit=N\n0 0 1032\n")
        self.by("load").send_keys(str(path))
        self.until(lambda: "own.txt" in self.text("record"))
        self.assertEqual(self.by("column-high").get_attribute("value"), "")
        self.assertEqual(self.told(), "")
        self.script("document.querySelector('input[value=knee]').click()")
        self.assertEqual(self.by("column-high").get_attribute("value"), "")
        self.assertEqual(self.by("row-high").get_attribute("value"), "1270")

    def test_digits_can_be_typed(self):
        self.fill(column_low="0.05", column_high="-5.50", column_unit="deg")
        self.assertEqual(self.by("column-low").get_attribute("value"), "0.05")
        self.assertEqual(self.by("column-high").get_attribute("value"), "-5.50")

    def test_years_with_different_units(self):
        self.draw(PLUS)
        self.fill(column_low="0", column_high="127", column_unit="deg")
        self.panel("years")
        self.press("years-keep")
        self.assertTrue(self.by("years-swap").is_enabled())
        self.assertEqual(self.text("meaning"), "")
        self.fill(column_high="254")
        self.panel("years")
        self.headline("Both years have the same cells")
        self.assertIn("Mind the units: last year columns 0.0\u00a0deg to 127.0\u00a0deg", self.text("meaning"))
        self.assertFalse(self.by("years-swap").is_enabled())

    def test_speeds_have_their_own_units(self):
        self.draw(PLUS)
        self.fill(column_low="0", column_high="127", column_unit="deg")
        self.panel("speeds")
        self.assertEqual(self.by("column-high").get_attribute("value"), "")
        path = self.folder / "fast.txt"
        path.write_text("# units party=knee angle=5..90 angle-unit=Grad\n0 1 101030323212\n")
        self.by("pile-load").send_keys(str(path))
        self.until(lambda: self.cells() == set(PLUS))
        self.assertEqual(self.by("column-high").get_attribute("value"), "90")
        self.assertEqual(self.labels(".axis")[0], "column: knee angle, Grad")
        self.panel("draw")
        self.assertEqual(self.by("column-high").get_attribute("value"), "127")
        self.assertEqual(self.labels(".axis")[0], "column: knee angle, deg")


if __name__ == "__main__":
    unittest.main()
