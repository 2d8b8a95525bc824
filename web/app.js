// What is drawn, what was drawn before, and who is told of a change.

import { SIDE } from "./chart.js";
import { BLANK, marked, ofCells } from "./drawing.js";
import { NO_UNITS } from "./units.js";

export const LAYERS = 16;
const MOST_UNDO = 200;

// The outlines of a file and the one that is shown; last year's block, if there is one; a block for each speed. Examples and tasks are on
// a sheet of their own, which no file has, with a last year of its own. The party names the axes. The speeds come from a file of their own,
// so they have their own units; so has last year's block.
export const FRESH = {
  records: [BLANK],
  at: 0,
  file: "",
  // Whether the file was opened up to a fault only.
  part: false,
  last: null,
  lastUnits: NO_UNITS,
  layers: Array(LAYERS).fill(BLANK),
  layer: 0,
  practice: null,
  practiceLast: null,
  task: false,
  party: 0,
  units: NO_UNITS,
  speedUnits: NO_UNITS,
};

export class App {
  constructor(engine) {
    this.engine = engine;
    this.state = FRESH;
    this.past = [];
    this.future = [];
    this.panel = "draw";
    this.cursor = [0, 0];
    this.listeners = [];
  }

  // Whether the sheet for practice is on the chart.
  get practising() {
    return this.panel !== "speeds" && this.state.practice !== null;
  }

  // The drawing on the chart: a layer while speeds are shown, else the sheet for practice, if there is one, or an outline of the file.
  get drawing() {
    const { state } = this;
    if (this.panel === "speeds") return state.layers[state.layer];
    return state.practice ?? state.records[state.at];
  }

  // Last year's block beside what is on the chart, and the state with another one.
  get last() {
    return this.practising ? this.state.practiceLast : this.state.last;
  }

  withLast(drawing) {
    if (this.practising) return { ...this.state, practiceLast: drawing };
    return { ...this.state, last: drawing, lastUnits: this.state.units };
  }

  // The units of both parties for what is on the chart, and the state with others.
  get units() {
    return this.panel === "speeds" ? this.state.speedUnits : this.state.units;
  }

  withUnits(units) {
    return this.panel === "speeds" ? { ...this.state, speedUnits: units } : { ...this.state, units };
  }

  // The state with another drawing on the chart.
  with(drawing) {
    const { state } = this;
    const replaced = (list, at) => list.map((old, i) => (i === at ? drawing : old));
    if (drawing === this.drawing) return state;
    if (this.panel === "speeds") return { ...state, layers: replaced(state.layers, state.layer) };
    if (state.practice) return { ...state, practice: drawing };
    return { ...state, records: replaced(state.records, state.at) };
  }

  withMarks(cells, mark) {
    return this.with(marked(this.drawing, cells, mark));
  }

  withCells(cells) {
    return this.with(ofCells(cells, this.drawing.name));
  }

  // A change that can be undone. Changes of one kind that follow each other are one, as letters of a name are.
  change(next, kind = null) {
    if (next === this.state) return;
    if (kind === null || kind !== this.kind) this.keep(this.state);
    this.kind = kind;
    this.set(next);
  }

  keep(before) {
    this.kind = null;
    this.past.push(before);
    if (this.past.length > MOST_UNDO) this.past.shift();
    this.future.length = 0;
  }

  set(next) {
    this.state = next;
    this.tell();
  }

  tell() {
    for (const listener of this.listeners) listener();
  }

  undo() {
    this.travel(this.past, this.future);
  }

  redo() {
    this.travel(this.future, this.past);
  }

  // Goes to a state before or after, and to the panel on which the change can be seen.
  travel(from, to) {
    if (from.length === 0) return;
    const next = from.pop();
    this.kind = null;
    to.push(this.state);
    const differs = (...names) => names.some((name) => next[name] !== this.state[name]);
    if (differs("layers", "speedUnits")) this.panel = "speeds";
    else if (differs("records", "practice", "units") && this.panel === "speeds") this.panel = "draw";
    this.set(next);
  }

  show(panel) {
    this.panel = panel;
    this.tell();
  }

  moveCursor([col, row]) {
    const clamp = (n) => Math.min(SIDE - 1, Math.max(0, n));
    this.cursor = [clamp(col), clamp(row)];
  }
}
