// Buttons, keys and pointers, and what each of them calls.

import { SIDE } from "./chart.js";
import { by } from "./dom.js";
import { BLANK } from "./drawing.js";
import { listen as listenToKeys } from "./keys.js";
import { open } from "./panels/block.js";
import { open as openSpeeds } from "./panels/speeds.js";
import { Pointers } from "./pointer.js";
import { strokes } from "./strokes.js";
import { keepLanguage, MESSAGES, TABLES } from "./text.js";

const CLICKS = {
  undo: (page) => page.app.undo(),
  redo: (page) => page.app.redo(),
  clear: (page) => page.app.change(page.app.with(BLANK)),
  in: (page) => page.zoom(1.25),
  out: (page) => page.zoom(0.8),
  fit: (page) => page.fit(),
  whole: (page) => (page.view.fit([[0, 0], [SIDE, SIDE]]), page.looked()),
  why: (page) => ((page.why = !page.why), page.show(), page.keep()),
  instead: (page) => page.instead(),
  "ask-yes": (page) => page.answered(true),
  "ask-no": (page) => page.answered(false),
};

export function listen(page) {
  listenToChart(page, by("chart"));
  // A stroke by keys that is not ended yet ends where something else is done.
  document.addEventListener("click", (event) => event.target.closest("button, select, input") && page.tools.release(), { capture: true });
  for (const [id, work] of Object.entries(CLICKS)) by(id).addEventListener("click", () => work(page));
  for (const radio of document.querySelectorAll('input[name="tool"], input[name="ink"]')) {
    radio.addEventListener("change", () => page.choose(radio.name, radio.value));
  }
  document.addEventListener("keydown", (event) => undoByKeys(event, page));
  addEventListener("pagehide", (event) => page.goes(event));
  addEventListener("beforeunload", (event) => page.goes(event));
  addEventListener("storage", () => page.device.changed());
  listenToDrops(page);
  listenToLanguage(page);
  listenToPrint(page);
}

// A file that is dropped on the page is opened by it; the browser would leave the page for it.
function listenToDrops(page) {
  addEventListener("dragover", (event) => event.preventDefault());
  addEventListener("drop", (event) => {
    event.preventDefault();
    const [file] = event.dataTransfer.files;
    if (page.app.panel === "speeds") openSpeeds(page, file);
    else open(page, file);
  });
}

// A printed form shows everything that is drawn, whatever the window shows, and the details.
function listenToPrint(page) {
  let before = null;
  addEventListener("beforeprint", () => {
    before = { view: page.view.kept(), open: by("details").open };
    by("details").open = true;
    page.frame();
  });
  addEventListener("afterprint", () => {
    if (before === null) return;
    by("details").open = before.open;
    page.view.measure();
    page.view.restore(before.view);
    page.show();
    before = null;
  });
}

// The languages that the page has, to choose from by hand. The page begins again in the other one, with everything that is drawn.
function listenToLanguage(page) {
  const list = by("language");
  const choice = ({ lang, language }) => Object.assign(document.createElement("option"), { value: lang, textContent: language });
  list.replaceChildren(...TABLES.map(choice));
  list.value = MESSAGES.lang;
  list.hidden = TABLES.length < 2;
  list.addEventListener("change", () => {
    page.save();
    keepLanguage(list.value);
    location.reload();
  });
}

function listenToChart(page, chart) {
  const { view } = page;
  new Pointers(chart, strokes(page));
  listenToKeys(chart, page.app, page.tools, page);
  const wheel = (event) => {
    event.preventDefault();
    page.zoom(event.deltaY < 0 ? 1.15 : 1 / 1.15, view.point(event.clientX, event.clientY));
  };
  chart.addEventListener("wheel", wheel, { passive: false });
  chart.addEventListener("pointerenter", () => view.measure());
  addEventListener("scroll", () => view.measure(), { capture: true, passive: true });
  addEventListener("resize", () => view.measure());
  const print = matchMedia("print");
  new ResizeObserver(() => (view.measure(), print.matches ? page.frame() : page.show())).observe(chart);
}

function undoByKeys(event, { app, tools }) {
  if (!(event.ctrlKey || event.metaKey) || event.target.matches?.('input[type="text"], input[type="number"]')) return;
  const again = event.key === "y" || event.key === "Z";
  if (event.key !== "z" && !again) return;
  event.preventDefault();
  tools.release();
  if (again) app.redo();
  else app.undo();
}
