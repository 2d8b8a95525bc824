// What mouse, pen and fingers on the chart do to the page.

// The calls for `Pointers`.
export function strokes(page) {
  const { tools, view } = page;
  let panning = false;
  const hover = (at) => {
    page.hover = page.cellAt(at);
    page.panel.pointed?.(view.point(...at).map((n) => n - 0.5));
  };
  // Shows what has become of it, unless a change of the drawing has done so.
  const shown = (work) => {
    const before = page.shows;
    work();
    if (page.shows === before) page.show();
  };
  return {
    press(at, { pan, erase }) {
      panning = pan || tools.tool === "hand";
      hover(at);
      shown(() => panning || tools.press(page.cellAt(at), erase));
    },
    drag(from, to) {
      if (panning) view.move(to[0] - from[0], to[1] - from[1]);
      hover(to);
      shown(() => panning || tools.drag(page.cellAt(to)));
    },
    release: () => shown(() => panning || tools.release()),
    cancel: () => shown(() => tools.cancel()),
    hover(at) {
      tools.note = null;
      hover(at);
      page.showWhere();
      if (page.panel.pointed) page.show();
    },
    leave() {
      page.hover = null;
      page.showWhere();
    },
    // The chart follows the middle between two fingers, and grows as they part.
    pinch(from, to) {
      const [before, after] = [middle(...from), middle(...to)];
      view.move(after[0] - before[0], after[1] - before[1]);
      view.zoom(apart(...to) / apart(...from), view.point(...after));
      page.show();
    },
    sameCell: (a, b) => page.cellAt(a).join() === page.cellAt(b).join(),
  };
}

const middle = ([ax, ay], [bx, by]) => [(ax + bx) / 2, (ay + by) / 2];
const apart = ([ax, ay], [bx, by]) => Math.max(20, Math.hypot(ax - bx, ay - by));
