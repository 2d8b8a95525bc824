"""What the page says is about what is drawn: after every change, in every way there is, its verdict is the program's on the cells shown."""

import re
import unittest
from pathlib import Path

import reference
from support import DENTED, PLUS, RUN, PageTest, record

SEED = 20260711
EDITS = 10_000
AT_ONCE = 500

# What the page shows at one moment.
SHOWN = """
    const shown = () => ({
      cells: document.querySelector("#chart path.cells").getAttribute("d"),
      missing: document.querySelector("#chart path.missing").getAttribute("d"),
      edges: document.querySelector("#chart path.edges").getAttribute("d"),
      outline: document.getElementById("letters-print").textContent,
      band: document.querySelector("#chart path.band").getAttribute("d"),
      witness: [...document.querySelectorAll("#chart .witness")].map((ring) => ring.dataset.cell),
      named: [...document.querySelectorAll("#chart .named[data-cell]")].map((ring) => ring.dataset.cell),
      why: document.getElementById("why").getAttribute("aria-pressed") === "true",
      said: document.getElementById("drawn").textContent.replace("This drawing: ", ""),
      headline: document.getElementById("said").textContent,
      own: document.getElementById("drawn").hidden,
      meaning: document.getElementById("meaning").textContent,
      place: document.getElementById("place").textContent,
      color: document.getElementById("drawn").className,
    });
"""

# Edits at random, made by the events that pointers, keys and buttons make.
RANDOM_EDITS = (
    SHOWN
    + """
    let [seed, count] = arguments;
    const below = (n) => Math.floor(((seed = (seed * 48271) % 2147483647) / 2147483647) * n);
    const chart = document.getElementById("chart");
    const click = (id) => document.getElementById(id).click();
    const real = { bubbles: true, cancelable: true };
    const key = (name, more = {}) => chart.dispatchEvent(new KeyboardEvent("keydown", { key: name, ...real, ...more }));
    const cell = () => [2 + below(12), 2 + below(9)];
    const place = ([col, row]) => {
      const plot = chart.querySelector(".plot").getScreenCTM();
      return { clientX: plot.a * (col + 0.5) + plot.e, clientY: plot.d * (row + 0.5) + plot.f };
    };
    const pointer = (kind, at, more) =>
      chart.dispatchEvent(new PointerEvent(kind, { ...place(at), pointerId: 7, pointerType: "mouse", ...real, ...more }));
    const seen = [];
    const note = () => seen.push(shown());
    const stroke = (more = {}) => {
      pointer("pointerdown", cell(), more);
      note();
      for (let i = 0; i < below(3); i++) {
        pointer("pointermove", cell(), more);
        note();
      }
      pointer(below(12) === 0 ? "pointercancel" : "pointerup", cell(), more);
    };
    const tool = (name) => document.querySelector(`input[value=${name}]`).click();
    const SPEEDS = ["layer-3", "layer-4", "layer-copy", "pile-bad", "pile-empty", "repair"];
    const ways = [
      [30, () => (tool("brush"), tool("paint"), stroke())],
      [8, () => (tool("brush"), tool("erase"), stroke())],
      [6, () => (tool("paint"), tool("line"), stroke())],
      [14, () => (tool("paint"), tool("rectangle"), stroke())],
      [5, () => (tool("erase"), tool("rectangle"), stroke())],
      [8, () => (tool("paint"), tool("fill"), stroke())],
      [1, () => (tool("erase"), tool("fill"), stroke())],
      [4, () => (tool("brush"), stroke({ button: 2 }))],
      [3, () => stroke({ pointerType: "touch", pointerId: 9 })],
      [8, () => click("undo")],
      [4, () => click("redo")],
      [2, () => click("clear")],
      [14, () => (click("instead"), note(), click(below(4) === 0 ? "ask-no" : "ask-yes"))],
      [3, () => click(["sheet-back", "sheet-add", "remove"][below(3)])],
      [2, () => click("why")],
      [3, () => click("example-on")],
      [1, () => click("example-back")],
      [2, () => click("add")],
      [2, () => click("back")],
      [2, () => click("on")],
      [3, () => click(["fit", "in", "out", "whole"][below(4)])],
      [6, () => (tool("brush"), tool("paint"), key(" "))],
      [6, () => key(["ArrowRight", "ArrowUp", "ArrowLeft", "ArrowDown"][below(4)], { shiftKey: below(2) === 1, ctrlKey: below(4) === 0 })],
      [2, () => (tool("rectangle"), key(" "), note(), key("ArrowRight"), note(), key("ArrowUp"), note(), key(" "))],
      [1, () => (tool("line"), key(" "), key("ArrowUp"), note(), key("Escape"))],
      [2, () => click(["tab-draw", "tab-lesson", "tab-readings", "tab-years", "tab-speeds", "tab-holder"][below(6)])],
      [2, () => click(["lesson-again", "lesson-on", "lesson-back"][below(3)])],
      [2, () => click(["years-keep", "years-swap", "years-drop"][below(3)])],
      [2, () => (click("tab-speeds"), note(), click(SPEEDS[below(6)]), click("ask-yes"))],
      [1, () => (click("tab-holder"), note(), click(["call-send", "call-begin", "call-rest", "call-clear", "log-clear"][below(5)]))],
    ];
    const total = ways.reduce((sum, [weight]) => sum + weight, 0);
    const pick = () => {
      let left = below(total);
      return ways.find(([weight]) => (left -= weight) < 0)[1];
    };
    while (seen.length < count) {
      // Blocks stay small and near the chart's corner, where strokes meet them.
      if (below(9) === 0) {
        click("clear");
        click("fit");
      }
      pick()();
      note();
    }
    return [seed, seen.slice(0, count)];
"""
)


def cells_of(path):
    found = set()
    for col, row, width, _ in RUN.findall(path):
        found |= {(c, int(row)) for c in range(int(col), int(col) + int(width))}
    return found


def outline_of(shown):
    """The outline of what is drawn: round its cells, or where it has none, the walk as it was sent. None if it has no single border."""
    cells = cells_of(shown["cells"])
    if cells:
        return reference.border(cells)
    sent = re.search(r"\((\d+), (\d+)\) (\d*)$", shown["outline"])
    return ((int(sent[1]), int(sent[2])), sent[3]) if sent else None


def count(edges):
    return "no edge" if edges == 0 else "1 edge" if edges == 1 else f"{edges} edges"


def path(anchor, edges):
    """Edges from an anchor as the chart draws them, from centre to centre."""
    corners = [tuple(anchor)]
    for dx, dy in edges:
        corners.append((corners[-1][0] + dx, corners[-1][1] + dy))
    return "M" + "L".join(f"{col}.5 {row}.5" for col, row in corners)


class Truth(PageTest):
    def hold(self, moments):
        """Each moment's words are those for what it shows."""
        outlines = [outline_of(shown) for shown in moments]
        sent = [outline for outline in outlines if outline is not None]
        lines = iter(reference.verdicts(sent))
        counts = {}
        for shown, outline in zip(moments, outlines):
            if outline is None:
                kind = "Not one border" if shown["cells"] else "No cell is marked"
                self.assertEqual((shown["said"], shown["edges"], shown["missing"]), (kind, "", ""), shown)
                counts[kind] = counts.get(kind, 0) + 1
                continue
            line = next(lines)
            self.same(shown, line)
            counts[line["number"]] = counts.get(line["number"], 0) + 1
        return counts

    def same(self, shown, line):
        """The page's words, edges, missing cells and witness are those of the program's answer."""
        number, told = line["number"], f"{shown} {line}"
        if shown["own"]:
            self.assertEqual(shown["headline"], shown["said"], told)
        if number == 0:
            self.assertEqual(shown["said"], f"Taken, {count(len(line['edges']))}", told)
            self.assertEqual((shown["color"], shown["missing"], shown["band"]), ("taken", "", ""), told)
            self.assertEqual(shown["edges"], path(line["anchor"], line["edges"]), told)
            return
        self.assertTrue(shown["said"].startswith(f"Refused, {number}: "), told)
        self.assertEqual((shown["color"], shown["edges"]), ("refused", ""), told)
        if number == 9 and shown["own"]:
            self.assertIn("the cell ({}, {}) lies in the hull".format(*line["cell"]), shown["meaning"], told)
        if number in (8, 9):
            self.assertIn(tuple(line["missing"]), cells_of(shown["missing"]), told)
            rings = [" ".join(map(str, cell)) for cell in line["witness"]] if shown["why"] else []
            self.assertEqual(shown["witness"], rings, told)
        if number == 9 or (number == 8 and shown["why"]):
            self.assertEqual(shown["named"], [" ".join(map(str, line["missing"]))], told)

    def now(self):
        return self.script(SHOWN + "return shown()")

    def test_ten_thousand_random_edits(self):
        seed, counts, moments = SEED, {}, 0
        while moments < EDITS:
            seed, seen = self.script(RANDOM_EDITS, seed, AT_ONCE)
            moments += len(seen)
            for kind, n in self.hold(seen).items():
                counts[kind] = counts.get(kind, 0) + n
        sent = sum(n for kind, n in counts.items() if isinstance(kind, int))
        print(f"\nweb: {moments} moments of random edits, {sent} held to the program, the others have nothing to send: {counts}")
        for kind in ("Not one border", "No cell is marked", 0, 8, 9):
            self.assertGreater(counts.get(kind, 0), 50, counts)

    def test_where_the_library_fails_there_is_no_verdict(self):
        self.draw(PLUS)
        self.says("Taken, 4 edges")
        for panel in ("draw", "readings", "years", "lesson"):
            self.panel(panel)
            self.script("window.kept = Uint8Array.from; Uint8Array.from = () => { throw new Error('no') }")
            self.click((3, 1))
            shown = self.now()
            self.assertEqual((shown["said"], shown["color"], shown["edges"], shown["band"]), ("No answer", "", "", ""))
            self.headline("No answer")
            self.assertEqual(cells_of(shown["cells"]), {*PLUS, (3, 1)})
            self.script("Uint8Array.from = window.kept")
            self.press("undo")
            self.says("Taken, 4 edges")
        # The browser tells of each failure.
        self.browser.get_log("browser")

    def test_every_way_there_is(self):
        """The ways that need more than one event: files, a reload, panels."""
        moments = []
        step = lambda: moments.append(self.now())
        self.draw(DENTED)
        step()
        path = Path(self.folder) / "two.fit"
        path.write_bytes(record((0, 1), "101030323212") + record((0, 0), "111033003222"))
        self.by("load").send_keys(str(path))
        self.until(lambda: "two.fit" in self.text("record"))
        step()
        self.press("on")
        step()
        self.says("Refused, 9")
        self.browser.refresh()
        self.until(lambda: self.script("return document.documentElement.dataset.ready") == "yes")
        step()
        self.says("Refused, 9")
        bad = Path(self.folder) / "bad.fit"
        bad.write_bytes(b"K")
        self.by("load").send_keys(str(bad))
        self.until(lambda: "Fault 23" in self.told())
        step()
        for panel in ("lesson", "readings", "years", "holder", "draw"):
            self.panel(panel)
            step()
        self.instead()
        step()
        self.says("Taken")
        self.press("instead")
        step()
        self.says("Refused, 9")
        self.press("undo")
        step()
        self.hold(moments)
        # The layers of the speeds are drawings of their own.
        self.panel("speeds")
        self.says("No cell is marked")
        self.draw(PLUS)
        self.says("Taken, 4 edges")
        self.panel("draw")
        self.hold([self.now()])


if __name__ == "__main__":
    unittest.main()
