// Mouse, pen and fingers on the chart. One of them draws; two fingers move and zoom the chart, and never draw.

// Calls `on.press`, `on.drag` and `on.release` for a stroke, and `on.cancel` where it turns out to be none; `on.hover` and `on.leave` for a
// pointer that is not down; and `on.pinch` for two fingers.
export class Pointers {
  constructor(svg, on) {
    this.svg = svg;
    this.on = on;
    this.down = new Map();
    this.stroke = null;
    // Two fingers have been down, and not all are up yet.
    this.gesture = false;
    svg.addEventListener("pointerdown", (event) => this.press(event));
    svg.addEventListener("pointermove", (event) => this.move(event));
    svg.addEventListener("pointerup", (event) => this.lift(event, true));
    svg.addEventListener("pointercancel", (event) => this.lift(event, false));
    svg.addEventListener("pointerleave", (event) => this.down.has(event.pointerId) || this.on.leave());
    svg.addEventListener("contextmenu", (event) => event.preventDefault());
  }

  press(event) {
    // The browser must not scroll to the chart when it gets the focus: cells would move under the pointer.
    event.preventDefault();
    this.svg.focus({ preventScroll: true });
    this.capture(event.pointerId);
    // The first of its kind: others that seem to be down were lifted where the page could not see it.
    if (event.isPrimary) this.forget();
    this.down.set(event.pointerId, [event.clientX, event.clientY]);
    if (this.down.size > 1) this.begin();
    else if (!this.gesture) this.start(event);
  }

  forget() {
    this.down.clear();
    this.gesture = false;
  }

  capture(id) {
    try {
      this.svg.setPointerCapture(id);
    } catch {
      // The pointer is up again.
    }
  }

  // A second finger: what the first one drew was no stroke.
  begin() {
    this.gesture = true;
    if (this.stroke && !this.stroke.held) this.on.cancel();
    this.stroke = null;
  }

  // A finger draws only when it leaves its cell or is lifted: a second one may follow.
  start(event) {
    const at = [event.clientX, event.clientY];
    const held = event.pointerType === "touch";
    this.stroke = { id: event.pointerId, held, at, how: { pan: event.button === 1, erase: event.button === 2 || event.button === 5 } };
    if (!held) this.on.press(at, this.stroke.how);
  }

  move(event) {
    const to = [event.clientX, event.clientY];
    const from = this.down.get(event.pointerId);
    if (from === undefined) {
      this.on.hover(to);
      return;
    }
    const before = [...this.down.values()].slice(0, 2);
    this.down.set(event.pointerId, to);
    if (this.gesture) {
      if (this.down.size > 1) this.on.pinch(before, [...this.down.values()].slice(0, 2));
      return;
    }
    if (this.stroke?.id !== event.pointerId) return;
    if (this.stroke.held && this.on.sameCell(this.stroke.at, to)) return;
    this.release();
    this.on.drag(from, to);
  }

  // What was held back of a stroke is drawn now.
  release() {
    if (!this.stroke.held) return;
    this.stroke.held = false;
    this.on.press(this.stroke.at, this.stroke.how);
  }

  lift(event, whole) {
    if (!this.down.delete(event.pointerId)) return;
    const { stroke } = this;
    if (stroke?.id === event.pointerId) {
      this.stroke = null;
      if (whole) this.end(stroke);
      else if (!stroke.held) this.on.cancel();
    }
    if (this.down.size === 0) this.gesture = false;
  }

  end(stroke) {
    if (stroke.held) this.on.press(stroke.at, stroke.how);
    this.on.release();
  }
}
