"""Drawing by mouse, fingers and keys."""

import unittest

from selenium.webdriver.common.actions.action_builder import ActionBuilder
from selenium.webdriver.common.keys import Keys

from support import DENTED, PLUS, PageTest


class Drawing(PageTest):
    def test_a_plus_is_taken(self):
        self.draw(PLUS)
        self.says("Taken, 4 edges")
        self.assertEqual(self.cells(), set(PLUS))
        self.assertEqual(self.by("letters").get_attribute("value"), "101030323212")
        self.assertEqual(self.text("outline-head"), "Start (0, 1), 12 letters.")
        self.assertEqual(self.marked_at("#chart .anchor"), [(0, 1)])
        self.assertIn("Edges (1, 1) (1, -1) (-1, -1) (-1, 1).", self.text("place"))
        self.assertEqual(self.path("edges"), "M0.5 1.5L1.5 2.5L2.5 1.5L1.5 0.5L0.5 1.5")

    def test_a_dent_is_marked(self):
        self.draw(DENTED)
        self.says("Refused, 9: a dent")
        self.assertEqual(self.cells("missing"), {(1, 1)})
        self.assertEqual(self.marked_at("#chart circle.named"), [(1, 1)])
        self.assertIn("(1, 1)", self.text("meaning"))
        self.click((1, 1))
        self.says("Taken, 3 edges")

    def test_no_single_border(self):
        self.draw([(0, 0), (1, 1)])
        self.says("Not one border")
        self.assertIn("Two cells meet only at the corner (1, 1).", self.text("place"))
        self.draw([(0, 1), (3, 1)])
        self.assertIn("There are 2 parts; one of them has the cell (3, 1).", self.text("place"))
        self.assertEqual(self.text("outline-head"), "No border yet.")
        self.press("clear")
        self.draw([(c, r) for c in (5, 6, 7) for r in (5, 6, 7) if (c, r) != (6, 6)])
        self.assertIn("There is a hole at the cell (6, 6).", self.text("place"))
        self.press("save-fitting")
        self.assertIn("Outline 0 has no single border", self.told())

    def test_press_move_a_pixel_release_is_one_cell(self):
        for size in ((1280, 720), (800, 1280), (1024, 600), (390, 800)):
            with self.subTest(size):
                self.resize(*size)
                self.open()
                self.press("clear")
                for n, cell in enumerate([(2, 2), (5, 3), (9, 6), (3, 8)]):
                    # A button has the focus, so that the chart gets it in the middle of the stroke.
                    self.by("fit").click()
                    self.script("document.getElementById('save-text').focus()")
                    top = self.script("document.getElementById('chart').scrollIntoView({block: 'nearest'}); return scrollY")
                    at = self.point(cell)
                    act = self.mouse()
                    act.pointer_action.move_to_location(*at).pointer_down().move_to_location(at[0] + 1, at[1]).pointer_up()
                    act.perform()
                    self.assertEqual(self.script("return scrollY"), top)
                    self.assertEqual(self.cells(), {cell})
                    self.press("undo")

    def test_a_stroke_is_one_change(self):
        self.drag((2, 2), (3, 2), (6, 2))
        self.says("Taken, 2 edges")
        self.assertEqual(self.cells(), {(col, 2) for col in range(2, 7)})
        self.press("undo")
        self.says("No cell is marked")
        self.press("redo")
        self.says("Taken, 2 edges")

    def test_the_brush_goes_side_by_side(self):
        self.drag((2, 2), (7, 5))
        self.assertEqual(len(self.cells()), 9)
        self.says("Taken")

    def test_lines_are_taken(self):
        self.tool("line")
        for end in ((7, 2), (4, 9), (11, 7), (1, 8), (12, 1)):
            self.press("clear")
            self.drag((6, 3), (2, 6), end)
            self.assertEqual(len(self.cells()), abs(end[0] - 6) + abs(end[1] - 3) + 1)
            self.assertTrue({(6, 3), end} <= self.cells())
            self.says("Taken")

    def test_rectangles(self):
        self.tool("rectangle")
        self.drag((2, 2), (9, 9), (5, 4))
        block = {(c, r) for c in range(2, 6) for r in range(2, 5)}
        self.assertEqual(self.cells(), block)
        self.tool("erase")
        self.drag((4, 4), (8, 8))
        self.assertEqual(self.cells(), block - {(4, 4), (5, 4)})
        self.press("undo")
        self.assertEqual(self.cells(), block)

    def test_fill(self):
        self.tool("rectangle")
        self.drag((2, 2), (6, 6))
        self.tool("erase")
        self.drag((3, 3), (5, 5))
        self.says("Not one border")
        self.tool("paint")
        self.tool("fill")
        self.click((4, 4))
        self.says("Taken, 4 edges")
        self.assertEqual(len(self.cells()), 25)
        self.click((9, 9))
        self.assertEqual(len(self.cells()), 25)
        self.assertIn("Nothing is filled", self.text("where"))
        self.tool("erase")
        self.click((4, 4))
        self.says("No cell is marked")

    def test_the_right_button_erases(self):
        self.draw(PLUS)
        act = self.mouse()
        act.pointer_action.move_to_location(*self.point((1, 2))).pointer_down(2).pointer_up(2)
        act.perform()
        self.assertEqual(self.cells(), set(PLUS) - {(1, 2)})

    def test_the_cell_under_the_pointer_is_named(self):
        self.draw(PLUS)
        for cell, words in (
            ((1, 1), "Cell (1, 1): marked. This page says: inside."),
            ((4, 4), "Cell (4, 4): not marked. This page says: outside."),
        ):
            self.hover(cell)
            self.assertEqual(self.text("where"), words)
        self.draw([(1, 3), (3, 1)])
        self.hover((2, 2))
        refused = "Cell (2, 2): not marked, and missing. No answer: the engine does not take this drawing."
        self.assertEqual(self.text("where"), refused)
        self.hover((-1, 1))
        self.assertEqual(self.text("where"), "Off the chart.")

    def test_the_whole_chart_and_the_wheel(self):
        self.press("whole")
        self.click((250, 250))
        self.says("Taken, no edge")
        (cell,) = self.cells()
        self.assertTrue(all(abs(number - 250) <= 1 for number in cell), cell)
        self.press("in")
        self.press("in")
        before = self.point(cell)
        self.wheel(before)
        after = self.point(cell)
        self.assertTrue(all(abs(a - b) <= 3 for a, b in zip(before, after)), (before, after))

    def test_the_hand_moves_the_chart(self):
        self.draw(PLUS)
        self.tool("hand")
        before = self.point((1, 1))
        self.drag((8, 7), (5, 5))
        self.assertEqual(self.cells(), set(PLUS))
        self.assertNotEqual(self.point((1, 1)), before)

    def test_examples(self):
        names = self.script("return [...document.getElementById('example').options].map((option) => option.textContent)")
        self.assertIn("H3: a plus", names)
        self.pick("H6: a dent")
        self.says("Refused, 9: a dent")
        self.press("example-on")
        self.says("Refused, 8: a back-step")
        self.press("example-on")
        self.says("Refused, 6: a corner is met twice")
        self.pick("A start off the chart")
        self.says("Refused, 2: the start is off the chart")
        self.pick("A block with a notch")
        self.says("Refused, 8: a back-step")
        self.assertIn("letter 2 (left, read backward as right) at place 46, in piece 3", self.text("place"))
        self.pick("As many edges as any: 100")
        self.says("Taken, 100 edges")


class Fingers(PageTest):
    def path_of(self, cells):
        return [self.point(cell) for cell in cells]

    def test_one_finger_paints(self):
        start, end = self.path_of([(4, 4), (4, 6)])
        act = ActionBuilder(self.browser, duration=0, mouse=self.finger())
        act.pointer_action.move_to_location(*start).pointer_down().move_to_location(*end).pointer_up()
        act.perform()
        self.says("Taken, 2 edges")
        self.assertEqual(self.cells(), {(4, 4), (4, 5), (4, 6)})

    def test_a_tap_is_one_cell(self):
        for size in ((1280, 720), (800, 1280)):
            self.resize(*size)
            self.press("clear")
            x, y = self.point((4, 4))
            act = ActionBuilder(self.browser, duration=0, mouse=self.finger())
            act.pointer_action.move_to_location(x, y).pointer_down().move_to_location(x + 1, y).pointer_up()
            act.perform()
            self.assertEqual(self.cells(), {(4, 4)})

    def touch(self, kind, *points):
        """Touches as the browser gets them from the screen."""
        touches = [{"x": x, "y": y, "id": n} for n, (x, y) in enumerate(points)]
        self.browser.execute_cdp_cmd("Input.dispatchTouchEvent", {"type": kind, "touchPoints": touches})

    def test_two_fingers_pan_and_zoom_and_never_paint(self):
        self.draw(PLUS)
        depth = self.script("return document.getElementById('undo').disabled")
        a, b = self.path_of([(4, 3), (8, 6)])
        scale = self.scale()
        seen = [self.cells()]
        self.touch("touchStart", a)
        seen.append(self.cells())
        self.touch("touchStart", a, b)
        for step in range(1, 9):
            self.touch("touchMove", (a[0] - 8 * step, a[1] + 4 * step), (b[0] + 8 * step, b[1] - 4 * step))
            seen.append(self.cells())
        self.touch("touchEnd", (a[0] - 64, a[1] + 32))
        # The finger that is left does not paint either.
        self.touch("touchMove", (a[0] + 60, a[1] - 60))
        self.touch("touchEnd")
        seen.append(self.cells())
        self.assertTrue(all(cells == set(PLUS) for cells in seen), seen)
        self.assertGreater(self.scale(), scale * 1.2)
        self.assertEqual(self.script("return document.getElementById('undo').disabled"), depth)
        self.says("Taken, 4 edges")

    def test_a_second_finger_takes_a_stroke_back(self):
        a, b, c = self.path_of([(4, 3), (8, 3), (8, 7)])
        self.touch("touchStart", a)
        self.touch("touchMove", b)
        self.assertEqual(len(self.cells()), 5)
        self.touch("touchStart", b, c)
        self.assertEqual(self.cells(), set())
        self.touch("touchMove", (b[0] + 30, b[1]), (c[0] + 30, c[1]))
        self.touch("touchEnd")
        self.assertEqual(self.cells(), set())
        self.says("No cell is marked")
        self.assertFalse(self.by("undo").is_enabled())

    def test_a_finger_that_was_lifted_unseen_is_forgotten(self):
        lost = "document.getElementById('chart').dispatchEvent(new PointerEvent('pointerdown', { pointerId: 99, isPrimary: true }))"
        self.script(lost)
        x, y = self.point((4, 4))
        self.touch("touchStart", (x, y))
        self.touch("touchEnd")
        self.assertIn((4, 4), self.cells())

    def scale(self):
        return self.script("return document.querySelector('#chart .plot').getScreenCTM().a")


class KeysAlone(PageTest):
    def to_chart(self):
        for _ in range(40):
            if self.browser.switch_to.active_element.get_attribute("id") == "chart":
                return
            self.keys(Keys.TAB)
        self.fail("Tab does not come to the chart")

    def test_cells_strokes_and_undo(self):
        self.to_chart()
        # H3: the middle row by shift and arrows, then the cells above and below its middle.
        self.keys(Keys.ARROW_UP)
        self.with_key(Keys.SHIFT, Keys.ARROW_RIGHT, Keys.ARROW_RIGHT)
        self.keys(Keys.ARROW_LEFT, Keys.ARROW_UP, Keys.SPACE, Keys.ARROW_DOWN, Keys.ARROW_DOWN, Keys.SPACE)
        self.says("Taken, 4 edges")
        self.assertEqual(self.cells(), set(PLUS))
        self.assertEqual(self.text("spoken"), "Cell (1, 0): marked. This page says: inside.")
        self.keys("e")
        self.with_key(Keys.SHIFT, Keys.ARROW_LEFT)
        self.assertNotIn((1, 0), self.cells())
        self.with_key(Keys.CONTROL, "z")
        self.says("Taken, 4 edges")
        self.with_key(Keys.CONTROL, "y")
        self.assertNotIn((1, 0), self.cells())
        self.keys("p", "+", "+", "-")
        self.with_key(Keys.CONTROL, Keys.ARROW_UP * 30)
        self.assertIn("254): not marked", self.text("spoken"))

    def test_lines_rectangles_and_filling(self):
        self.to_chart()
        self.keys("r", Keys.ARROW_RIGHT, Keys.ARROW_UP, Keys.SPACE)
        self.keys(Keys.ARROW_RIGHT * 4, Keys.ARROW_UP * 3)
        self.assertEqual(len(self.cells()), 20)
        self.keys(Keys.SPACE)
        self.says("Taken, 4 edges")
        self.keys("e", Keys.ARROW_LEFT, Keys.ARROW_DOWN, Keys.SPACE, Keys.ARROW_LEFT * 2, Keys.ARROW_DOWN, Keys.SPACE)
        self.says("Not one border")
        self.keys("p", "g", Keys.SPACE)
        self.says("Taken, 4 edges")
        self.keys("l", Keys.SPACE, Keys.ARROW_UP * 9)
        self.assertGreater(len(self.cells()), 20)
        self.keys(Keys.ESCAPE)
        self.assertEqual(len(self.cells()), 20)

    def test_panels_by_arrows(self):
        self.script("document.getElementById('tab-draw').focus()")
        self.keys(Keys.ARROW_RIGHT, Keys.ARROW_RIGHT)
        self.assertEqual(self.script("return document.activeElement.id"), "tab-readings")
        self.assertTrue(self.by("panel-readings").is_displayed())
        self.keys(Keys.ARROW_RIGHT, Keys.ARROW_RIGHT)
        self.script("document.getElementById('layer-0').focus()")
        self.keys(Keys.ARROW_RIGHT, Keys.ARROW_DOWN)
        self.assertEqual(self.by("layer-2").get_attribute("aria-checked"), "true")
        self.script("document.getElementById('tab-holder').click(); document.getElementById('place-0-0').focus()")
        self.keys(Keys.ARROW_LEFT)
        self.assertEqual(self.by("place-1-3").get_attribute("aria-checked"), "true")

    def test_a_mouse_ends_a_stroke_by_keys(self):
        self.to_chart()
        self.keys("r", Keys.SPACE, Keys.ARROW_RIGHT, Keys.ARROW_UP)
        self.assertEqual(len(self.cells()), 4)
        self.click((5, 5))
        self.assertEqual(len(self.cells()), 5)
        self.press("undo")
        self.assertEqual(len(self.cells()), 4)
        self.press("undo")
        self.says("No cell is marked")

    def test_what_was_spoken_is_not_left_behind(self):
        self.to_chart()
        self.keys(Keys.SPACE)
        self.assertEqual(self.text("spoken"), "Cell (0, 0): marked. This page says: inside.")
        self.press("clear")
        self.assertEqual(self.text("spoken"), "")

    def test_every_control_can_be_reached(self):
        """Tab goes round all panels' controls that are shown, and arrows from tab to tab."""
        shown = """return [...document.querySelectorAll('button, select, input, textarea, [tabindex="0"]')]
            .filter((e) => !e.disabled && !e.closest("fieldset") && e.checkVisibility({ visibilityProperty: true })).map((e) => e.id)"""
        self.pick("H6: a dent")
        self.press("instead")
        seen, wanted = set(), set()
        for panel in ("draw", "lesson", "readings", "years", "speeds", "holder"):
            self.script("document.getElementById(`tab-${arguments[0]}`).click(); document.activeElement.blur()", panel)
            wanted |= set(self.script(shown))
            for _ in range(70):
                self.keys(Keys.TAB)
                seen.add(self.script("return document.activeElement.id"))
        self.assertLessEqual({"sheet-back", "ask-yes", "forget", "call-send"}, wanted)
        hidden = {f"tab-{name}" for name in ("draw", "lesson", "readings", "years", "speeds", "holder")}
        grouped = set(self.script("return [...document.querySelectorAll('[role=radio]')].map((e) => e.id)"))
        self.assertEqual(wanted - hidden - {""} - seen - grouped, set())


if __name__ == "__main__":
    unittest.main()
