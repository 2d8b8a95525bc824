// The page: puts on the screen what is drawn and what the library says of it, in one go.

import { load } from "../js/robequarry.js";
import { App, FRESH } from "./app.js";
import { walk } from "./border.js";
import { onChart, SIDE } from "./chart.js";
import { listen } from "./controls.js";
import { Device } from "./device.js";
import { by, write } from "./dom.js";
import { ofOutline } from "./drawing.js";
import { showForm } from "./form.js";
import { judge, saidAt } from "./judge.js";
import { block } from "./panels/block.js";
import { holder } from "./panels/holder.js";
import { lesson } from "./panels/lesson.js";
import { readings } from "./panels/readings.js";
import { speeds } from "./panels/speeds.js";
import { years } from "./panels/years.js";
import { Picture } from "./picture.js";
import { verdict } from "./say.js";
import { Store } from "./store.js";
import { story } from "./story.js";
import { Tabs } from "./tabs.js";
import { at, count, text, translate } from "./text.js";
import { Tools } from "./tools.js";
import { inUnits, PARTIES } from "./units.js";
import { View } from "./view.js";

const PANELS = { draw: block, lesson, readings, years, speeds, holder };

class Page {
  constructor(engine) {
    this.engine = engine;
    this.app = new App(engine);
    this.store = new Store();
    this.tools = new Tools(this.app);
    this.view = new View(by("chart"));
    this.picture = new Picture(this.view);
    this.tabs = new Tabs(this.app);
    this.hover = null;
    this.why = true;
    this.shows = 0;
    this.accounts = new WeakMap();
    // The state right after cells were added in one go, and the question whether to do that.
    this.completed = null;
    this.asked = null;
    this.device = new Device(this);
    this.panels = Object.fromEntries(Object.entries(PANELS).map(([name, make]) => [name, make(this)]));
    this.app.listeners.push(() => this.show(), () => this.keep());
  }

  get panel() {
    return this.panels[this.app.panel];
  }

  // The units of the party whose axes are shown.
  get units() {
    return this.app.units[PARTIES[this.app.state.party]];
  }

  // Everything that is shown of the drawing, worked out from the drawing now. What cannot be worked out is not shown.
  show() {
    this.shows++;
    const { drawing } = this.app;
    const { answer, told, words } = this.account(drawing);
    if (this.asked && this.asked.state !== this.app.state) this.asked = null;
    const more = attempt(() => this.panel.more(drawing, answer), {});
    this.view.measures(this.app.state.party, this.units);
    this.picture.draw(told, drawing.faults, { why: this.why, ...more }, this.app.cursor);
    const shown = attempt(() => (this.panel.show(drawing, answer), true), false);
    const own = this.panel.headline;
    const headline = own ? shown && attempt(() => own(drawing, answer, words), null) : words;
    this.showVerdict(headline || failure(), answer, own ? words : null);
    this.showTools(answer);
    this.showWhere();
    this.showSheet();
    attempt(() => showForm(this, drawing), null);
    this.tabs.show();
    if (!shown) this.tabs.hide();
  }

  // The answer to a drawing, with its picture and its words. They belong to the drawing, so they are made once.
  account(drawing) {
    if (this.accounts.has(drawing)) return this.accounts.get(drawing);
    const made = attempt(() => this.told(drawing), null);
    if (made !== null) this.accounts.set(drawing, made);
    return made ?? { answer: { kind: "failed" }, told: { cells: drawing.cells }, words: failure() };
  }

  told(drawing) {
    const answer = judge(this.engine, drawing);
    return { answer, told: story(drawing, answer), words: verdict(drawing, answer) };
  }

  // The headline is about what the panel is about. Where that is not the drawing, the drawing's verdict stands below it.
  showVerdict(headline, { kind }, drawn) {
    const color = { taken: "taken", refused: "refused", unsent: "refused" };
    by("verdict").className = color[headline.kind ?? kind] ?? "";
    by("drawn").className = color[kind] ?? "";
    write(by("said"), headline.what);
    write(by("advice"), headline.advice ?? "");
    write(by("meaning"), headline.meaning ?? "");
    write(by("place"), headline.where ?? "");
    by("details").hidden = !headline.where;
    write(by("drawn"), text("drawn", { what: (drawn ?? headline).what }));
    by("drawn").hidden = drawn === null;
  }

  showTools(answer) {
    const { app } = this;
    by("chart").dataset.tool = this.tools.tool;
    by("undo").disabled = app.past.length === 0;
    by("redo").disabled = app.future.length === 0;
    const back = app.state === this.completed;
    by("instead").disabled = !back && !answer.added;
    by("why").disabled = !answer.added;
    by("why").setAttribute("aria-pressed", String(this.why));
    if (back) write(by("instead"), text("instead.back"));
    else write(by("instead"), answer.added ? text("instead.count", { n: answer.added.count }) : text("instead"));
    by("ask").hidden = this.asked === null;
    if (this.asked) write(by("ask-text"), this.asked.words);
  }

  // Says that examples and tasks are not the wearer's work, where they are on the chart.
  showSheet() {
    by("sheet").hidden = !this.app.practising;
    by("intro").hidden = this.app.practising;
  }

  // The cell under the pointer, or else the cursor's, with the library's answer there.
  showWhere() {
    const cell = this.hover ?? this.app.cursor;
    write(by("where"), this.tools.note ? text(this.tools.note) : attempt(() => this.whereWords(cell, this.app.drawing), ""));
    // What was spoken last may be true no more.
    write(by("spoken"), "");
  }

  whereWords(cell, drawing) {
    if (!onChart(...cell)) return text("where.off");
    const { answer } = this.account(drawing);
    const kind = drawing.cells?.has(...cell) ? "marked" : answer.added?.has(...cell) ? "missing" : "open";
    const said = this.panel.saidAt ? this.panel.saidAt(cell) : saidAt(this.engine, drawing, cell);
    const units = inUnits(this.units, cell);
    const named = units ? text("where.units", { cell: at(cell), units }) : at(cell);
    return text(`where.${said}`, { cell: text(`where.${kind}`, { cell: named }) });
  }

  cellAt([x, y]) {
    return this.view.point(x, y).map(Math.floor);
  }

  // About a point of the chart, or else about the middle of the window.
  zoom(factor, point) {
    this.view.zoom(factor, point);
    this.looked();
  }

  // The window has changed: it is shown, and kept.
  looked() {
    this.show();
    this.keep();
  }

  // Everything that is drawn, for the window to fit: the drawing, and what a panel shows beside it.
  fit() {
    this.frame();
    this.keep();
  }

  frame() {
    const seen = [this.app.drawing, ...(this.panel.beside?.() ?? [])].flatMap(cornersOf);
    this.view.fit(seen.length > 0 ? seen : [[0, 0], [16, 12]]);
    this.show();
  }

  // Shows what is new from near by, with the cursor at it.
  visit() {
    this.hover = null;
    this.app.moveCursor(this.app.drawing.start ?? this.app.cursor);
    this.fit();
  }

  // After a key on the chart: the cursor is in the window, and its cell is spoken.
  follow() {
    this.hover = null;
    this.view.reveal(this.app.cursor);
    this.panel.pointed?.(this.app.cursor);
    this.show();
    write(by("spoken"), by("where").textContent);
  }

  choose(group, value) {
    this.tools.release();
    this.tools[group] = value;
    this.tools.note = null;
    document.querySelector(`input[name="${group}"][value="${value}"]`).checked = true;
    this.show();
  }

  // Asks before cells are added in one go: how many, and where. Another change takes the question back.
  ask(words, work) {
    this.asked = { words, work, state: this.app.state };
    this.show();
    by("ask-yes").focus();
  }

  answered(yes) {
    const { asked } = this;
    this.asked = null;
    if (yes && asked) asked.work();
    this.show();
    by("instead").focus();
  }

  // Makes a change that adds cells. One click takes it back.
  complete(next) {
    this.app.change(next);
    this.completed = this.app.state;
    this.show();
  }

  // The completion is asked for first. Once it is there, one click undoes it.
  instead() {
    const { app } = this;
    if (app.state === this.completed) return app.undo();
    const { completion, added } = this.account(app.drawing).answer;
    const next = app.with(ofOutline({ ...completion, name: app.drawing.name }));
    this.ask(text("ask.instead", { cells: count(added.count, "cell"), ...added.bounds() }), () => this.complete(next));
  }

  // Keeps the work for a reload: soon, and at the latest when the page goes.
  keep() {
    this.dirty = true;
    clearTimeout(this.saving);
    this.saving = setTimeout(() => this.save(), 300);
  }

  // What is not kept is told.
  save(force = false) {
    clearTimeout(this.saving);
    const panels = Object.fromEntries(Object.entries(this.panels).map(([name, panel]) => [name, panel.kept?.()]));
    const before = this.store.id;
    const what = this.store.save(this.app, { why: this.why, panels, view: this.view.kept() }, force);
    this.device.told(what, before);
    this.dirty = this.device.losing;
  }

  // When the page goes. Nobody looks at the chart then, so a question is asked where work would be lost.
  goes(event) {
    if (this.leaving || !this.dirty) return;
    this.save();
    if (this.device.losing && this.app.state !== FRESH && event.type === "beforeunload") event.preventDefault();
  }

  // Nothing is left of what was drawn, here or on this device.
  forget() {
    this.store.forget();
    this.begin();
  }

  // The page begins again, with what is kept.
  begin() {
    this.leaving = true;
    location.reload();
  }

  // Nothing is to be kept yet: a page that is only opened overwrites nothing.
  opened() {
    clearTimeout(this.saving);
    this.dirty = false;
  }

  // Returns whether the window is as it was, too.
  restore() {
    const kept = this.store.restore();
    if (kept === null) return false;
    Object.assign(this.app, { state: kept.state, past: kept.past, future: kept.future });
    this.why = kept.why !== false;
    if (Object.hasOwn(this.panels, kept.panel)) this.app.panel = kept.panel;
    if (Array.isArray(kept.cursor) && onChart(...kept.cursor)) this.app.cursor = kept.cursor;
    for (const [name, panel] of Object.entries(this.panels)) {
      try {
        panel.restore?.(kept.panels[name]);
      } catch {
        // What a panel cannot use of it is left out.
      }
    }
    return this.view.restore(kept.view);
  }
}

const failure = () => ({ kind: "failed", what: text("failed.what"), meaning: text("failed.meaning") });

// What comes of some work, or something else where it fails.
function attempt(work, otherwise) {
  try {
    return work();
  } catch (error) {
    console.error(error);
    return otherwise;
  }
}

// The corners of a drawing, as far as they are on the chart.
function cornersOf({ start, letters, cells }) {
  const ends = ([row, first, last]) => [[first, row], [last + 1, row + 1]];
  const corners = letters ? walk(start, letters) : (cells?.runs() ?? []).flatMap(ends);
  return corners.map((corner) => corner.map((n) => Math.min(SIDE, Math.max(0, n))));
}

async function begin() {
  translate(document);
  const bytes = Uint8Array.from(atob(by("library").textContent), (letter) => letter.charCodeAt(0));
  const page = new Page(await load(bytes));
  const seen = page.restore();
  listen(page);
  if (seen) page.show();
  else page.visit();
  page.opened();
  page.device.opened();
  document.documentElement.dataset.ready = "yes";
}

begin().catch((error) => {
  console.error(error);
  write(by("said"), text("nolibrary"));
});
