// Speeds: a block for each of sixteen, the check of all of them, what they lack, and a repair.

import { LAYERS } from "../app.js";
import { walk } from "../border.js";
import { SIDE } from "../chart.js";
import { arrows, button, by, write } from "../dom.js";
import { BLANK, named, ofCells } from "../drawing.js";
import { Fault, textFile } from "../files.js";
import { judge, outlineOf } from "../judge.js";
import { closure, dents } from "../layers.js";
import { tell, unsay } from "../notice.js";
import { download, opened } from "../opening.js";
import { examplePile } from "../pile.js";
import { drawSection, missingFrom, sectionOf } from "../section.js";
import { boxOf, cellsPath, polyline, put, thumbnail } from "../svg.js";
import { count, text } from "../text.js";
import { axisName, NO_UNITS } from "../units.js";
import { showUnits } from "./block.js";

export function speeds(page) {
  const { app, engine } = page;
  const pile = new Checked(engine);
  const strip = new Strip(app, engine);
  // Which of the dented sections is shown.
  const seen = { layers: null, at: 0 };
  const now = () => {
    const found = pile.of(app.state.layers);
    if (seen.layers !== app.state.layers) Object.assign(seen, { layers: app.state.layers, at: 0 });
    return found;
  };
  const section = ({ sections }) => sections[seen.at];
  const step = (by_) => () => {
    const { sections } = now();
    if (sections.length > 0) seen.at = (seen.at + by_ + sections.length) % sections.length;
    page.show();
  };

  listen(page, pile);
  by("section-back").addEventListener("click", step(-1));
  by("section-on").addEventListener("click", step(1));
  return {
    beside: () => app.state.layers,
    saidAt([col, row]) {
      const { kind } = now();
      if (kind !== "passed") return "unchecked";
      const reply = pile.pile.query(app.state.layer, { col, row });
      return reply.refusal ? "unchecked" : reply.word;
    },
    more() {
      const { layers, layer } = app.state;
      const found = now();
      const below = layers[layer - 1];
      const other = below?.letters ? polyline(walk(below.start, below.letters)) : "";
      const shown = section(found);
      const line = shown ? (shown.piece === 0 ? `M${shown.place + 0.5} 0V${SIDE}` : `M0 ${shown.place + 0.5}H${SIDE}`) : "";
      const lack = found.lacking ? cellsPath(found.lacking[layer].cells) : "";
      return { ticks: found.sections, paths: { other, lack, "section-line": line } };
    },
    show() {
      showUnits(page, by("panel-speeds"));
      strip.show();
      const found = now();
      by("layer-copy").disabled = app.state.layer === LAYERS - 1;
      by("repair").disabled = found.kind !== "dented" && found.kind !== "bad";
      showLacks(app, found);
      const shown = section(found);
      by("section-box").classList.toggle("none", !shown);
      if (!shown) return;
      const key = shown.piece === 0 ? "section.at.column" : "section.at.row";
      const place = { n: seen.at + 1, count: found.sections.length, place: shown.place };
      write(by("section-at"), text(key, place));
      const axis = shown.piece === 0 ? "row" : "column";
      const name = axisName(app.state.party, axis, page.units[axis]);
      const marks = sectionOf(app.state.layers, shown);
      drawSection(by("section"), marks, missingFrom(engine, marks), name);
    },
    headline() {
      const { kind, bad, refusal, sections } = now();
      const key = refusal ? (refusal.piece === 0 ? "column" : "row") : kind;
      const values = { bad, place: refusal?.place, sections: count(sections.length, "section") };
      const color = { passed: "taken", blank: "none" }[kind] ?? "refused";
      return { kind: color, what: text(`pile.${key}`, values), advice: text(`pile.${key}.text`, values), meaning: text(`pile.${color}`) };
    },
  };
}

// The library's check of layers, with every section that lacks cells.
class Checked {
  constructor(engine) {
    this.engine = engine;
    this.pile = engine.pile();
    this.layers = null;
    this.found = null;
  }

  of(layers) {
    if (this.layers === layers) return this.found;
    this.found = this.check(layers);
    this.layers = layers;
    return this.found;
  }

  // No check while one of the layers is not taken: the pile does not have it then.
  check(layers) {
    const kinds = layers.map((layer) => judge(this.engine, layer).kind);
    layers.forEach((layer, n) => layer !== this.layers?.[n] && this.set(n, layer, kinds[n]));
    const bad = kinds.findIndex((kind) => kind !== "taken" && kind !== "blank");
    if (bad >= 0) return { kind: "bad", bad, sections: [], lacking: null };
    if (kinds.every((kind) => kind === "blank")) return { kind: "blank", sections: [], lacking: null };
    const { passed, refusal } = this.pile.check();
    return passed ? { kind: "passed", sections: [], lacking: null } : { kind: "dented", refusal, ...dents(layers) };
  }

  set(n, layer, kind) {
    if (kind === "taken") this.pile.set(n, outlineOf(layer));
    else this.pile.empty(n);
  }
}

// The speeds that lack cells, each a button that goes there.
function showLacks(app, { lacking }) {
  const rows = (lacking ?? []).flatMap(({ cells, sections }, n) => (sections > 0 ? [[n, cells.count, sections]] : []));
  const list = by("lacks");
  const key = rows.join(";");
  if (list.dataset.key === key) return;
  list.dataset.key = key;
  list.replaceChildren(
    ...rows.map(([n, cells, sections]) => {
      const made = button([text("lacks", { n, cells: count(cells, "cell"), sections: count(sections, "section") })], { id: `lacks-${n}` });
      made.addEventListener("click", () => app.set({ ...app.state, layer: n }));
      const row = document.createElement("li");
      row.append(made);
      return row;
    }),
  );
}

function listen(page, pile) {
  const { app } = page;
  const layers = (list) => {
    app.change({ ...app.state, layers: list });
    page.fit();
  };
  const clicks = {
    "layer-copy"() {
      const { layer, layers: list } = app.state;
      if (layer + 1 === LAYERS) return;
      app.change({ ...app.state, layers: list.map((old, n) => (n === layer + 1 ? app.drawing : old)), layer: layer + 1 });
    },
    "pile-good": () => ask(page, () => layers(examplePile(false))),
    "pile-bad": () => ask(page, () => layers(examplePile(true))),
    "pile-empty": () => layers(Array(LAYERS).fill(BLANK)),
    "pile-save": () => save(app),
    "repair": () => repair(page, pile),
  };
  for (const [id, work] of Object.entries(clicks)) by(id).addEventListener("click", work);
  by("pile-load").addEventListener("change", () => open(page, by("pile-load").files[0]));
}

// An example takes the place of all speeds, so it is asked for where some are drawn.
function ask(page, work) {
  if (page.app.state.layers.every((layer) => layer === BLANK)) work();
  else page.ask(text("ask.example"), work);
}

// The program's file of a pile: an outline for each speed, one without letters for an empty one.
function save(app) {
  try {
    unsay("file");
    const drawings = app.state.layers.map((layer, n) => (layer.name ? layer : named(layer, text("speeds.name", { n }))));
    download(textFile(drawings, app.state.speedUnits), "speeds.txt");
  } catch (error) {
    if (!(error instanceof Fault)) throw error;
    tell("file", error.message);
  }
}

export async function open(page, file) {
  const { app } = page;
  if (!file) return;
  const bytes = new Uint8Array(await file.arrayBuffer());
  by("pile-load").value = "";
  unsay("file");
  const { drawings, units, image, fault } = await opened(page.engine, bytes, file.name);
  const many = drawings.length > LAYERS ? text("fault.layers", { n: drawings.length, most: LAYERS }) : null;
  const good = drawings.slice(0, LAYERS).map((drawing) => (drawing.letters?.length === 0 ? BLANK : drawing));
  // An image is one block: that of the speed that is shown.
  if (image) app.change({ ...app.state, layers: app.state.layers.map((old, n) => (n === app.state.layer ? good[0] : old)) });
  else if (good.length > 0) {
    const list = [...good, ...Array(LAYERS - good.length).fill(BLANK)];
    app.change({ ...app.state, layers: list, layer: 0, speedUnits: { ...NO_UNITS, ...units } });
  }
  if (good.length > 0) page.fit();
  const key = good.length > 0 ? "file.some" : "file.none";
  const words = fault ?? many;
  if (words !== null) tell("file", text(key, { file: file.name, fault: words, outlines: count(good.length, "outline") }));
}

// Every repair has the cells of the closure. Where each speed of it is one block, it is the smallest repair; else the parts are named.
function repair(page, pile) {
  const { app, engine } = page;
  const { layers } = app.state;
  if (layers.some(({ cells }) => cells === null)) return tell("file", text("repair.none"));
  const next = closure(layers).map((cells, n) => (cells.equals(layers[n].cells) ? layers[n] : ofCells(cells, layers[n].name)));
  const more = next.map(({ cells }, n) => cells.count - layers[n].cells.count);
  const speeds_ = more.flatMap((n, layer) => (n > 0 ? [layer] : [])).join(", ");
  const kinds = next.map((layer) => judge(engine, layer).kind);
  const of = (wanted) => kinds.flatMap((kind, n) => (wanted.includes(kind) ? [n] : []));
  // A closed block is refused only for the length of its border, and larger ones have longer borders.
  if (kinds.includes("refused")) return tell("file", text("repair.long", { bad: of(["refused"]).join(", ") }));
  const bad = of(["unsent"]);
  const values = { cells: count(more.reduce((sum, n) => sum + n, 0), "cell"), speeds: speeds_, bad: bad.join(", ") };
  const work = () => {
    page.complete({ ...app.state, layers: next });
    // The library has the last word on it.
    const { kind } = pile.of(next);
    if (kind !== "passed") tell("file", text("repair.parts", values));
  };
  page.ask(text(bad.length > 0 ? "ask.parts" : "ask.repair", values), work);
}

// The strip of layers to choose from.
class Strip {
  constructor(app, engine) {
    this.app = app;
    this.engine = engine;
    this.shown = [];
    const choose = (made) => app.set({ ...app.state, layer: Number(made.dataset.layer) });
    this.buttons = Array.from({ length: LAYERS }, (_, n) => button([], { role: "radio", "data-layer": n, id: `layer-${n}` }));
    by("layers").append(...this.buttons);
    for (const made of this.buttons) made.addEventListener("click", () => choose(made));
    arrows(by("layers"), choose);
  }

  show() {
    const { layers, layer } = this.app.state;
    const box = boxOf(layers.map(({ cells }) => cells));
    this.buttons.forEach((made, n) => {
      made.setAttribute("aria-checked", String(n === layer));
      made.tabIndex = n === layer ? 0 : -1;
      if (made.firstChild) put(made.firstChild, "viewBox", box);
      if (this.shown[n] === layers[n]) return;
      this.shown[n] = layers[n];
      const { kind } = judge(this.engine, layers[n]);
      made.dataset.kind = kind;
      made.setAttribute("aria-label", text("speeds.layer", { n, verdict: text(kind === "refused" ? "short.not" : `short.${kind}`) }));
      made.replaceChildren(thumbnail(layers[n].cells, box), String(n));
    });
  }
}
