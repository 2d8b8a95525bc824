// The tools: what a stroke of the brush, a line, a rectangle or a filling makes of the drawing. One stroke is one change.

import { onChart } from "./chart.js";
import { filling, line, rectangle } from "./shapes.js";

export const TOOLS = ["brush", "line", "rectangle", "fill", "hand"];

export class Tools {
  constructor(app) {
    this.app = app;
    this.tool = "brush";
    this.ink = "paint";
    this.stroke = null;
    // Why nothing was drawn, if so; a key of the messages.
    this.note = null;
  }

  // Begins at a cell; `erase` has the pen's other end or the right button.
  press(cell, erase = false) {
    const { app } = this;
    // A stroke by keys may be open still.
    this.release();
    const mark = this.ink === "paint" && !erase;
    this.stroke = { before: app.state, drawing: app.drawing, first: cell, last: cell, mark };
    this.note = null;
    if (this.tool === "fill") this.fill(cell, mark);
    else this.draw([cell], cell);
  }

  drag(cell) {
    if (!this.stroke || this.tool === "fill") return;
    const { first, last } = this.stroke;
    if (cell[0] === last[0] && cell[1] === last[1]) return;
    this.stroke.last = cell;
    if (this.tool === "brush") this.draw(line(last, cell), cell);
    else this.shape(first, cell);
  }

  // A line or a rectangle is drawn on what was there before, as often as its end moves.
  shape(first, cell) {
    this.app.state = this.stroke.before;
    this.draw(this.tool === "line" ? line(first, cell) : rectangle(first, cell), cell);
  }

  draw(cells, end) {
    const { app } = this;
    if (onChart(...end)) app.moveCursor(end);
    app.set(app.withMarks(cells, this.stroke.mark));
  }

  fill(cell, mark) {
    const { app } = this;
    const cells = app.drawing.cells ? filling(app.drawing.cells, cell, mark) : [];
    if (onChart(...cell)) app.moveCursor(cell);
    if (cells.length === 0) this.note = mark ? "note.fill" : "note.erase";
    app.set(app.withMarks(cells, mark));
  }

  release() {
    const { app, stroke } = this;
    this.stroke = null;
    if (!stroke || stroke.before === app.state) return;
    app.keep(stroke.before);
    app.tell();
  }

  // The stroke was none: everything is as before.
  cancel() {
    const { app, stroke } = this;
    this.stroke = null;
    if (stroke) app.set(stroke.before);
  }
}
