"""How fast a large block is redrawn. The figure is reported; no test depends on it, since the machine may be busy."""

import unittest

from support import PageTest

# A block with a border of 612 letters, cut off at one corner. In each frame the brush marks a cell at the cut or takes it away: half of
# the frames are taken, half refused by 9, and the border has 612 letters in all of them.
FRAMES = """
    const [frames, done] = arguments;
    const chart = document.getElementById("chart");
    const plot = chart.querySelector(".plot").getScreenCTM();
    const at = (col, row) => ({ clientX: plot.a * (col + 0.5) + plot.e, clientY: plot.d * (row + 0.5) + plot.f });
    const pointer = (kind, place, button = 0) =>
      chart.dispatchEvent(new PointerEvent(kind, { ...place, pointerId: 7, bubbles: true, cancelable: true, button }));
    const tool = (name) => document.querySelector(`input[value=${name}]`).click();
    const stroke = (from, to, button) => {
      pointer("pointerdown", from, button);
      pointer("pointermove", to, button);
      pointer("pointerup", to, button);
    };
    tool("rectangle");
    stroke(at(50, 50), at(202, 202));
    stroke(at(201, 201), at(202, 202), 2);
    tool("brush");
    const words = new Set(), lengths = new Set();
    let [count, work, first] = [0, 0, 0];
    const frame = (now) => {
      if (count === 0) first = now;
      if (count === frames) return done([[...lengths], (frames * 1000) / (now - first), work / frames, [...words]]);
      const before = performance.now();
      pointer("pointerdown", at(201, 201), count % 2 === 0 ? 0 : 2);
      pointer("pointerup", at(201, 201));
      work += performance.now() - before;
      lengths.add(document.getElementById("letters").value.length);
      words.add(document.getElementById("said").textContent);
      count++;
      requestAnimationFrame(frame);
    };
    requestAnimationFrame(frame);
"""

COUNT = 300


class Speed(PageTest):
    def busy(self):
        """Seconds of processor time that the page's thread has used."""
        metrics = self.browser.execute_cdp_cmd("Performance.getMetrics", {})["metrics"]
        return {metric["name"]: metric["value"] for metric in metrics}["TaskDuration"]

    def test_frames_a_second(self):
        self.press("whole")
        self.browser.execute_cdp_cmd("Performance.enable", {"timeDomain": "threadTicks"})
        before = self.busy()
        letters, frames, work, words = self.browser.execute_async_script(FRAMES, COUNT)
        busy = 1000 * (self.busy() - before) / COUNT
        self.assertEqual(letters, [612])
        self.assertEqual(sorted(words), ["Refused, 9: a dent", "Taken, 5 edges"])
        print(
            f"\nweb: a block of 612 letters is redrawn {frames:.1f} times a second; "
            f"a frame has {work:.1f} ms of script and {busy:.1f} ms of processor time in all"
        )


if __name__ == "__main__":
    unittest.main()
