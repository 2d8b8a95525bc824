"""What a trainer shows: readings, why not, draw this instead, years, speeds, the holder and the lesson."""

import math
import subprocess
import unittest

from selenium.webdriver.common.keys import Keys

import reference
from support import DENTED, PLUS, RUN, PageTest, outlines

class Help(PageTest):
    def test_the_witness_and_the_band(self):
        self.draw(DENTED)
        # H6 of the contract: the cells (2, 0), (0, 2), (0, 1) hold (1, 1).
        self.assertEqual(set(self.marked_at("#chart .witness")), {(2, 0), (0, 2), (0, 1)})
        self.assertIn("(1, 1) lies in their triangle", self.text("place"))
        self.assertEqual(self.path("triangle").count("L"), 2)
        self.assertEqual(self.path("band"), "M0.5 0.5L0.5 2.5L2.5 0.5L0.5 0.5")
        self.press("why")
        self.assertEqual((self.path("triangle"), self.path("band"), self.marked_at("#chart .witness")), ("", "", []))
        self.assertNotEqual(self.path("chord"), "")
        self.press("why")
        self.assertNotEqual(self.path("band"), "")

    def test_a_back_step_has_a_witness_too(self):
        self.pick("H7: a back-step")
        self.says("Refused, 8")
        self.assertIn("The cells (0, 1) and (2, 1) are marked, and (1, 1) lies between them.", self.text("place"))
        self.assertEqual(self.marked_at("#chart circle.named"), [(1, 1)])

    def test_draw_this_instead(self):
        self.draw(DENTED)
        self.assertEqual(self.text("instead"), "Draw this instead (+1) …")
        self.assertEqual(self.cells("missing"), {(1, 1)})
        self.press("instead")
        self.assertEqual(self.text("ask-text"), "This marks 1 cell more, in columns 1 to 1 and rows 1 to 1: the hatched ones. Mark them?")
        self.assertFalse(self.by("meaning").is_displayed())
        self.says("Refused, 9")
        self.press("ask-no")
        self.assertFalse(self.by("ask").is_displayed())
        self.assertEqual(self.cells(), set(DENTED))
        self.instead()
        self.says("Taken, 3 edges")
        self.assertEqual(self.cells(), set(DENTED) | {(1, 1)})
        self.assertEqual(self.text("instead"), "Back to what I drew")
        self.press("instead")
        self.says("Refused, 9")
        self.assertEqual(self.cells(), set(DENTED))
        # Another change takes the question back.
        self.press("instead")
        self.click((5, 5))
        self.assertFalse(self.by("ask").is_displayed())
        self.assertFalse(self.by("instead").is_enabled())
        self.press("undo")
        self.instead()
        self.click((5, 5))
        self.assertFalse(self.by("instead").is_enabled())


class Readings(PageTest):
    def word(self, angle, load):
        for name, number in (("angle", angle), ("shin", load)):
            field = self.by(name)
            field.clear()
            field.send_keys(str(number))
        return self.text("said")

    def test_words_at_typed_readings(self):
        """Those of the contract, with H3 at work."""
        self.pick("H3: a plus")
        self.panel("readings")
        for angle, load, word in ((1, 1, "Inside"), (1, 2, "Undecided"), (0.5, 1.51, "Undecided"), (0.5, 1.4, "Inside"), (0, 2, "Outside")):
            self.assertEqual(self.word(angle, load), word, (angle, load))
        self.assertEqual(self.word(255, 1), "Refused, 11: off the chart")
        self.pick("H6: a dent")
        self.panel("readings")
        self.assertEqual(self.word(1, 1), "No answer: the engine does not take this drawing")

    def test_the_point_under_the_pointer(self):
        self.pick("H3: a plus")
        self.panel("readings")
        for _ in range(9):
            self.wheel(self.point((0, 0), (1.3, 2.0)))
        for part, word in (((1.5, 1.5), "Inside"), ((1.0, 2.0), "Undecided"), ((1.45, 2.35), "Inside"), ((1.0, 2.1), "Outside")):
            self.hover((0, 0), part)
            self.assertEqual(self.text("said"), word, part)
            near = [float(self.by(name).get_attribute("value")) for name in ("angle", "shin")]
            # The pointer goes by whole pixels: it is at most half of one away, each way.
            half = 0.51 / self.script("return document.querySelector('#chart .plot').getScreenCTM().a")
            self.assertTrue(all(abs(n + 0.5 - p) < half for n, p in zip(near, part)), (near, part))

    def test_the_strip_is_where_readings_are_undecided(self):
        """Each point of the loupe is a reading. Across an edge of H3 the strip is 1/32 over the edge's length wide: a quarter of it."""
        self.pick("H3: a plus")
        self.panel("readings")
        self.assertNotEqual(self.path("strip-line"), "")
        numbers = [float(n) for n in self.path("strip").replace("M", " ").replace("L", " ").replace("z", " ").split()]
        corners = list(zip(numbers[::2], numbers[1::2]))
        self.assertTrue(any(math.isclose(x + y, 2 - 1 / 64) for x, y in corners), corners)
        self.word(0.5, 1.5)
        script = "return document.querySelector(`#loupe .said-${arguments[0]}`).getAttribute('d')"
        count = lambda word: sum(int(width) for _, _, width, _ in RUN.findall(self.script(script, word)))
        inside, undecided, outside = (count(word) for word in ("inside", "undecided", "outside"))
        self.assertEqual(inside + undecided + outside, 31 * 31)
        self.assertTrue(0.2 < undecided / 31 / 31 < 0.45 and abs(inside - outside) < 60, (inside, undecided, outside))

    def test_keys(self):
        self.draw(PLUS)
        self.panel("readings")
        self.script("document.getElementById('chart').focus()")
        self.keys(Keys.ARROW_DOWN)
        self.assertEqual(self.by("shin").get_attribute("value"), "1")
        self.assertEqual(self.text("said"), "Inside")


class Years(PageTest):
    def rectangle(self, *corners):
        self.tool("rectangle")
        self.drag(*corners)

    def test_the_five_words(self):
        self.panel("years")
        self.assertIn("no block of last year", self.text("said"))
        self.rectangle((2, 2), (6, 5))
        self.press("years-keep")
        self.assertEqual(self.text("said"), "Both years have the same cells")
        self.rectangle((2, 2), (8, 5))
        self.assertEqual(self.text("said"), "Last year's block lies within this year's")
        # The inner one's edges: last year's.
        self.assertEqual(self.path("inner"), "M2.5 2.5L2.5 5.5L6.5 5.5L6.5 2.5L2.5 2.5")
        self.assertEqual(self.cells("ghost"), {(c, r) for c in range(2, 7) for r in range(2, 6)})
        self.press("years-swap")
        self.assertEqual(self.text("said"), "This year's block lies within last year's")
        self.assertEqual(self.path("inner"), "M2.5 2.5L2.5 5.5L6.5 5.5L6.5 2.5L2.5 2.5")
        self.press("clear")
        self.assertIn("Nothing to compare", self.text("said"))
        self.assertEqual(self.path("inner"), "")
        self.rectangle((10, 2), (12, 5))
        self.assertEqual(self.text("said"), "No cell is in both")
        self.press("clear")
        self.rectangle((6, 4), (12, 7))
        self.assertEqual(self.text("said"), "They cross: each has cells that the other lacks")
        self.assertEqual(self.path("inner"), "")
        self.press("years-drop")
        self.assertIn("no block of last year", self.text("said"))
        self.press("undo")
        self.assertIn("They cross", self.text("said"))


class Speeds(PageTest):
    def test_the_check_and_its_section(self):
        self.panel("speeds")
        self.headline("No speed has a block")
        self.press("pile-good")
        self.assertEqual(self.text("said"), "The check is passed")
        self.says("Taken")
        self.press("pile-bad")
        self.press("ask-yes")
        self.assertEqual(self.text("said"), "Refused, 21: a dent at column 63")
        self.assertEqual(self.path("section-line"), "M63.5 0V255")
        gone = self.marked_at("#section .gone")
        self.assertTrue(gone and all(layer == 9 for layer, _ in gone), gone)
        self.press("undo")
        self.assertEqual(self.text("said"), "The check is passed")

    def test_a_layer_is_drawn_and_chosen(self):
        self.panel("speeds")
        self.draw(PLUS)
        self.press("layer-copy")
        self.press("layer-copy")
        self.assertEqual(self.by("layer-2").get_attribute("aria-checked"), "true")
        self.says("Taken, 4 edges")
        self.assertEqual(self.text("said"), "The check is passed")
        self.press("layer-1")
        self.press("clear")
        self.assertEqual(self.text("said"), "Refused, 21: a dent at column 0")
        self.assertEqual(self.marked_at("#section .gone"), [(1, 1)])
        self.draw(DENTED)
        self.assertEqual(self.text("said"), "Not checked: the block of speed 1 is not taken")
        self.hover((1, 1))
        self.assertIn("have not passed the check", self.text("where"))

    def test_a_query_is_the_piles(self):
        self.panel("speeds")
        self.draw(PLUS)
        self.hover((1, 1))
        self.assertEqual(self.text("where"), "Cell (1, 1): marked. This page says: inside.")
        self.press("layer-5")
        self.hover((1, 1))
        self.assertEqual(self.text("where"), "Cell (1, 1): not marked. This page says: outside.")


class Repair(PageTest):
    def give(self, text):
        path = self.folder / "speeds-in.txt"
        path.write_text(text)
        self.by("pile-load").send_keys(str(path))

    def layers(self):
        """The cells of every speed."""
        found = []
        for n in range(16):
            self.press(f"layer-{n}")
            found.append(self.cells())
        return found

    def test_what_is_lacking_and_the_smallest_repair(self):
        self.panel("speeds")
        self.press("pile-bad")
        self.headline("Refused, 21: a dent at column 63")
        self.assertIn("Nothing has been sent.", self.text("meaning"))
        self.assertEqual(self.text("lacks"), "Speed 9 lacks 2,644 cells in 188 sections")
        self.press("lacks-9")
        self.assertEqual(self.by("layer-9").get_attribute("aria-checked"), "true")
        lacking = self.cells("lack")
        self.assertEqual(len(lacking), 2644)
        # Every dented section can be seen, and the library says of each which cells it lacks.
        seen = set()
        for n in range(188):
            at = self.text("section-at")
            self.assertTrue(at.startswith(f"Dented section {n + 1} of 188: "), at)
            kind, place = at.split(": ")[1].split()
            gone = self.marked_at("#section .gone")
            self.assertTrue(gone and all(layer == 9 for layer, _ in gone), at)
            seen |= {(int(place), m) if kind == "column" else (m, int(place)) for _, m in gone}
            self.script("document.getElementById('section-on').click()")
        self.assertEqual(seen, lacking)
        before = self.cells()
        self.press("repair")
        self.assertEqual(
            self.text("ask-text"),
            "This marks 2,644 cells more (speeds 9). No smaller repair keeps every marked cell. Mark them?",
        )
        self.press("ask-yes")
        self.headline("The check is passed")
        self.assertEqual(self.cells(), before | lacking)
        self.assertEqual(self.text("instead"), "Back to what I drew")
        self.press("instead")
        self.headline("Refused, 21: a dent at column 63")

    def test_where_there_is_no_smallest_repair(self):
        """The smallest case: three cells. Every repair has the cell between two of them, which then meets the third at a corner only."""
        self.panel("speeds")
        self.give("5 5 1032\n6 6 1032\n5 5 1032\n")
        self.until(lambda: self.text("said").startswith("Refused, 21"))
        self.press("repair")
        self.assertIn("Every repair marks 1 cell more (speeds 1), but these alone are no repair", self.text("ask-text"))
        self.press("ask-yes")
        self.headline("Not checked: the block of speed 1 is not taken")
        self.assertIn("join their parts by hand", self.told())
        self.press("layer-1")
        self.assertEqual(self.cells(), {(5, 5), (6, 6)})
        # Two repairs, neither of which lies within the other.
        for cell in ((5, 6), (6, 5)):
            self.click(cell)
            self.headline("The check is passed")
            self.press("undo")

    def test_the_programs_file(self):
        self.panel("speeds")
        self.give("# a pile\n0 1 101030323212  # slow\n0 0\n0 0 1032\n")
        self.until(lambda: self.by("layer-2").get_attribute("data-kind") == "taken")
        self.draw([(4, 4)])
        path = self.folder / "speeds.txt"
        path.unlink(missing_ok=True)
        self.press("pile-save")
        self.until(lambda: path.exists() and path.stat().st_size > 0, f"the download {path.name}")
        lines = path.read_text().splitlines()
        self.assertEqual(len(lines), 16)
        self.assertEqual(lines[0], "0 0  # cells 0:1-1 1:0-2 2:1-1 4:4-4  # slow")
        self.assertEqual(lines[1:4], ["0 0  # speed 1", "0 0 1032  # speed 2", "0 0  # speed 3"])
        self.press("undo")
        path.unlink()
        self.press("pile-save")
        self.until(lambda: path.exists() and path.stat().st_size > 0, f"the download {path.name}")
        ran = subprocess.run([reference.program(), "pile", str(path)], capture_output=True, text=True, timeout=60)
        self.assertIn("layer 0 (slow): taken - 4 edges", ran.stdout)
        self.assertEqual("refused, 21" in ran.stdout, self.text("said").startswith("Refused, 21"))
        self.give("0 0 1032\n" * 17)
        self.until(lambda: "It holds 17 outlines, and there are 16 speeds." in self.told())


class Holder(PageTest):
    def log(self):
        return self.script("return [...document.querySelectorAll('#log li')].map((line) => line.textContent)")

    def test_call_by_call(self):
        self.draw(PLUS)
        self.panel("holder")
        for name in ("close", "begin", "begin", "add", "rest", "close", "query", "row", "reading", "piece"):
            self.press(f"call-{name}")
        self.assertEqual(
            self.log(),
            [
                "knee close at place 0: refused, 13: there is no draft",
                "knee begin (0, 1): done",
                "knee begin (0, 1): refused, 14: there is a draft already",
                "knee add 101030323212 (12 letters, a call each): done",
                "knee close at place 0: taken, 4 edges, anchor (0, 1)",
                "knee query (1, 2) at place 0: inside",
                "knee row 2 at place 0: columns 1 to 1",
                "knee reading (1.25, 2) at place 0: outside",
                "knee piece 0 at place 0: move to (0.5, 1.5)",
                "knee piece 1 at place 0: line to (1.5, 2.5)",
                "knee piece 2 at place 0: line to (2.5, 1.5)",
                "knee piece 3 at place 0: line to (1.5, 0.5)",
                "knee piece 4 at place 0: close",
                "knee piece 5 at place 0: none",
            ],
        )

    def test_places_and_parties(self):
        self.draw(PLUS)
        self.panel("holder")
        self.press("call-send")
        self.assertEqual(self.cells("ghost"), set(PLUS))
        self.assertEqual(self.path("inner"), "M0.5 1.5L1.5 2.5L2.5 1.5L1.5 0.5L0.5 1.5")
        self.press("call-send")
        self.assertIn("the same cells as before", self.log()[-1])
        self.press("place-1-3")
        self.assertEqual(self.cells("ghost"), set())
        self.press("call-query")
        self.assertEqual(self.log()[-1], "ankle query (1, 2) at place 3: refused, 12: nothing is at work at this place")
        self.press("call-begin")
        self.assertEqual(self.text("draft"), "The ankle has a draft from (0, 1) with no letter.")
        self.press("call-drop")
        self.assertEqual(self.text("draft"), "The ankle has no draft.")
        self.press("place-0-0")
        self.assertIn("a block of 5 cells is at work", self.by("place-0-0").get_attribute("aria-label"))
        self.browser.refresh()
        self.until(lambda: self.script("return document.documentElement.dataset.ready") == "yes")
        self.assertEqual(self.cells("ghost"), set(PLUS))
        self.press("call-clear")
        self.assertEqual(self.cells("ghost"), set())
        self.press("log-clear")
        self.assertEqual(self.log(), [])

    def test_a_refused_draft_leaves_what_is_at_work(self):
        self.draw(PLUS)
        self.panel("holder")
        self.press("call-send")
        self.press("clear")
        self.draw(DENTED)
        self.press("call-send")
        self.assertEqual(self.log()[-1], "knee close at place 0: refused, 9: a dent")
        self.assertEqual(self.cells("ghost"), set(PLUS))
        # The headline is about the place, and the drawing's verdict stands below it.
        self.headline("Knee, place 0: a block of 5 cells is at work")
        self.says("Refused, 9")


class Lesson(PageTest):
    def state(self):
        return self.text("lesson-state")

    def test_every_task_can_be_done(self):
        training = outlines("training.txt")
        self.panel("lesson")
        self.assertIn("Begin", self.state())
        self.press("lesson-again")
        self.says("Taken")
        # A corner cell of the hull may go; a cell of a straight side may not.
        self.assertIn("Not yet", self.state())
        self.tool("erase")
        self.click((70, 59))
        self.assertIn("Done", self.state())
        for place in (1, 2):
            self.press("lesson-on")
            self.assertIn(training[place][2], self.text("lesson-title"))
            self.assertIn("Not yet", self.state())
            self.instead()
            self.assertIn("Done", self.state())
        self.press("lesson-on")
        self.assertIn("take cells away", self.text("lesson-task"))
        self.tool("rectangle")
        self.drag((36, 20), (50, 38))
        self.says("Taken")
        self.assertIn("Done", self.state())
        self.press("lesson-on")
        self.tool("brush")
        self.tool("paint")
        self.click(self.free_cell())
        self.assertIn("Done", self.state())
        self.press("lesson-on")
        self.draw(PLUS)
        self.assertIn("Done", self.state())
        self.press("lesson-on")
        self.draw([(3, 3), (4, 4)])
        self.assertIn("Done", self.state())
        self.press("lesson-on")
        self.draw([(c, r) for c in (5, 6, 7) for r in (5, 6, 7) if (c, r) != (6, 6)])
        self.assertIn("Done", self.state())
        done = self.script("return document.querySelectorAll('#lesson-list .done').length")
        self.assertEqual(done, len(training) + 3)

    def free_cell(self):
        """A cell beside the sloping block that can be added: beside the anchor's column, below the lowest row or the like."""
        cells = self.cells()
        for cell in sorted({(c + dc, r + dr) for c, r in cells for dc, dr in ((1, 0), (0, 1), (-1, 0), (0, -1))} - cells):
            self.click(cell)
            if self.text("drawn").startswith("This drawing: Taken"):
                self.press("undo")
                return cell
            self.press("undo")
        self.fail("no cell can be added")


if __name__ == "__main__":
    unittest.main()
