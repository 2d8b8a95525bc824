// Drawing with keys alone. The chart has a cursor; a line or a rectangle is begun and ended by the space key.

const ARROWS = { ArrowRight: [1, 0], ArrowUp: [0, 1], ArrowLeft: [-1, 0], ArrowDown: [0, -1] };
const FAR = 10;

const CHOICES = {
  b: ["tool", "brush"],
  l: ["tool", "line"],
  r: ["tool", "rectangle"],
  g: ["tool", "fill"],
  h: ["tool", "hand"],
  p: ["ink", "paint"],
  e: ["ink", "erase"],
};

// Listens on the chart; `page` has what the keys do.
export function listen(chart, app, tools, page) {
  chart.addEventListener("keydown", (event) => {
    if (event.altKey || event.metaKey) return;
    if (act(event, app, tools, page)) event.preventDefault();
  });
}

function act(event, app, tools, page) {
  const arrow = ARROWS[event.key];
  if (arrow) return step(arrow, event, app, tools, page);
  if (event.ctrlKey) return false;
  const key = event.key.toLowerCase();
  if (key === " " || key === "enter") return press(app, tools, page);
  if (key === "escape") return cancel(tools, page);
  if (CHOICES[key]) return page.choose(...CHOICES[key]), true;
  if (key === "+" || key === "=") return page.zoom(1.25), true;
  if (key === "-") return page.zoom(0.8), true;
  if (key === "f") return page.fit(), true;
  return false;
}

// With Shift the brush draws on the way; a line or a rectangle that is begun follows the cursor.
function step([dc, dr], event, app, tools, page) {
  const far = event.ctrlKey ? FAR : 1;
  const [col, row] = app.cursor;
  const draws = event.shiftKey && tools.tool === "brush";
  if (draws) tools.press([col, row]);
  app.moveCursor([col + dc * far, row + dr * far]);
  if (tools.stroke) tools.drag(app.cursor);
  if (draws) tools.release();
  page.follow();
  return true;
}

function press(app, tools, page) {
  if (tools.tool === "hand") return false;
  if (tools.stroke) tools.release();
  else {
    const marked = app.drawing.cells?.has(...app.cursor) ?? false;
    // The brush takes away a cell that is marked.
    tools.press(app.cursor, tools.tool === "brush" && marked);
    if (tools.tool === "brush" || tools.tool === "fill") tools.release();
  }
  page.follow();
  return true;
}

function cancel(tools, page) {
  if (!tools.stroke) return false;
  tools.cancel();
  page.follow();
  return true;
}
