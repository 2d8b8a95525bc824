// Keeps the work over a reload, where the browser has room for it, and says where it has none. Each window has a place of its own: no
// window overwrites what another one keeps, and nothing that is kept is passed over, whatever page has kept it.

import { FRESH, LAYERS } from "./app.js";
import { Cells, onChart } from "./chart.js";
import { BLANK, ofCells, ofOutline } from "./drawing.js";
import { NO_UNITS, wholeUnits } from "./units.js";

const PREFIX = "robequarry-";
const FORMAT = 2;
// The work of a window, and a note of it: who wrote it, when, and what it is.
const WORK = `${PREFIX}page-`;
const NOTE = `${PREFIX}note-`;
// Pages before this one had one place, and their work has no note.
const OLDER = "1";
// The work that was kept last; and for a reload, the work of this window.
const LATEST = `${PREFIX}latest`;
const MINE = `${PREFIX}window`;
const NOBODY = "-";
// A browser keeps some five million characters. More are not even tried, since they take long to write.
const MOST_CHARACTERS = 5_000_000;
const RECORD = 50;
// How many states before and after are kept, the most first, then fewer where there is no room.
const UNDOS = [100, 10, 0];

// A drawing with letters is kept as an outline, another one as runs of cells. Letters are digits, where they can be.
const packs = new WeakMap();

function packed(drawing) {
  if (drawing === null || drawing === BLANK) return null;
  if (!packs.has(drawing)) packs.set(drawing, pack(drawing));
  return packs.get(drawing);
}

function pack({ name, start, letters, cells }) {
  if (!letters) return { name, runs: cells.runs() };
  return { name, start, letters: letters.every((letter) => letter < 10) ? letters.join("") : [...letters] };
}

const isNumber = (n) => Number.isInteger(n) && n >= 0 && n <= 65535;
const isStart = (list) => Array.isArray(list) && list.length === 2 && list.every(isNumber);
const areLetters = (list) => Array.isArray(list) && list.every((letter) => isNumber(letter) && letter < 256);
const lettersOf = (kept) => (typeof kept === "string" && /^\d*$/.test(kept) ? Array.from(kept, Number) : kept);

function unpacked(kept) {
  if (kept === null) return BLANK;
  const name = String(kept.name ?? "");
  if (kept.runs) return ofCells(ofRuns(kept.runs), name);
  const { start } = kept;
  const letters = lettersOf(kept.letters);
  if (!isStart(start) || !areLetters(letters)) throw new Error(WORK);
  return ofOutline({ name, start, letters: Uint8Array.from(letters) });
}

function ofRuns(runs) {
  const cells = [];
  for (const [row, first, last] of runs) {
    if (!onChart(first, row) || !onChart(last, row)) throw new Error(WORK);
    for (let col = first; col <= last; col++) cells.push([col, row]);
  }
  return Cells.of(cells);
}

// Drawings stand in a table, once each. A list of drawings is written as places of the table, or as what differs from the list before it.
class Packer {
  constructor() {
    this.drawings = [];
    this.places = new Map();
    this.lists = [];
    this.listPlaces = new Map();
  }

  drawing(drawing) {
    if (drawing === null) return null;
    if (!this.places.has(drawing)) {
      this.places.set(drawing, this.drawings.length);
      this.drawings.push(packed(drawing));
    }
    return this.places.get(drawing);
  }

  list(list, before) {
    if (!this.listPlaces.has(list)) {
      const based = before?.length === list.length && this.listPlaces.has(before);
      const differs = based ? list.flatMap((drawing, i) => (drawing === before[i] ? [] : [[i, this.drawing(drawing)]])) : null;
      const made = based ? { of: this.listPlaces.get(before), differs } : list.map((drawing) => this.drawing(drawing));
      this.listPlaces.set(list, this.lists.length);
      this.lists.push(made);
    }
    return this.listPlaces.get(list);
  }

  state(state, before) {
    const { records, layers, last, practice, practiceLast } = state;
    return {
      ...state,
      records: this.list(records, before?.records),
      layers: this.list(layers, before?.layers),
      last: this.drawing(last),
      practice: this.drawing(practice),
      practiceLast: this.drawing(practiceLast),
    };
  }
}

function packedApp({ state, past, future, panel, cursor }, undos, more) {
  const packer = new Packer();
  const latest = (list) => list.slice(Math.max(0, list.length - undos));
  const states = [...latest(past), state, ...latest(future)];
  const made = states.map((each, i) => packer.state(each, states[i - 1]));
  const now = states.indexOf(state);
  return { format: FORMAT, drawings: packer.drawings, lists: packer.lists, states: made, now, panel, cursor, ...more };
}

function unpackedStates({ drawings, lists, states }) {
  const found = drawings.map(unpacked);
  const made = [];
  for (const list of lists) {
    if (Array.isArray(list)) made.push(list.map((place) => found[place]));
    else made.push(made[list.of].map((drawing, i) => found[list.differs.find(([at]) => at === i)?.[1]] ?? drawing));
  }
  return states.map((state) => whole({ ...state, records: made[state.records], layers: made[state.layers], ...sheets(state, found) }));
}

// Places of the table are drawings. A page that knew no such sheet has none.
const sheets = (state, found) =>
  Object.fromEntries(["last", "practice", "practiceLast"].map((name) => [name, state[name] == null ? null : found[state[name]]]));

// Units that are equal are one object, as they were: an undo looks for what differs.
const measures = new Map([[JSON.stringify(NO_UNITS), NO_UNITS]]);

function same(units) {
  const key = JSON.stringify(units);
  if (!measures.has(key)) measures.set(key, units);
  return measures.get(key);
}

// A state with every part as it should be; an error is thrown where that cannot be.
function whole(state) {
  const { records, at, file, last, layers, layer, practice, practiceLast } = state;
  const sheet = [last, practice, practiceLast];
  const good = records[Number(at)] && layers.length === LAYERS && layers[Number(layer)] && !sheet.includes(undefined);
  if (!good) throw new Error(WORK);
  const axes = Object.fromEntries(["units", "speedUnits", "lastUnits"].map((name) => [name, same(wholeUnits(state[name]))]));
  const flags = { party: state.party === 1 ? 1 : 0, part: state.part === true, task: state.task === true };
  return { ...FRESH, records, at, file: String(file), layers, layer, last, practice, practiceLast, ...flags, ...axes };
}

// What the first pages kept: one state, with its drawings in it.
function olderState({ state }) {
  const { records, last, layers } = state;
  const sheet = { last: last && unpacked(last), practice: null, practiceLast: null };
  return whole({ ...state, records: records.map(unpacked), layers: layers.map(unpacked), ...sheet });
}

// What was kept as it is used, whatever page has kept it; an error is thrown where it cannot be read.
function read(words) {
  const kept = JSON.parse(words);
  if (kept.format === undefined && kept.state) return { panels: {}, ...kept, state: olderState(kept), past: [], future: [] };
  if (kept.format !== undefined && kept.format !== FORMAT) throw new Error(WORK);
  const states = unpackedStates(kept);
  if (!states[kept.now]) throw new Error(WORK);
  return { ...kept, state: states[kept.now], past: states.slice(0, kept.now), future: states.slice(kept.now + 1) };
}

const readable = (words) => {
  try {
    return read(words);
  } catch {
    return null;
  }
};

// What a note says of a state: how many outlines it has, and the first name or the file by which one knows it.
function noted({ records, file }) {
  return { outlines: records.length, title: records.find(({ name }) => name)?.name || file };
}

const isWork = (words) => typeof words === "string" && words !== "" && words !== "null";

// What comes of work on the browser's store, or something else where it allows none.
function allowed(work, otherwise) {
  try {
    return work();
  } catch {
    return otherwise;
  }
}

export class Store {
  constructor() {
    // This page, as no other one is called.
    this.page = Math.random().toString(36).slice(2);
    this.count = 0;
    // The place of this window's work, and the note that this page wrote or read there last. Without one there is no work there yet.
    this.id = this.page;
    this.seen = null;
    this.older = false;
    // Whether this window has written it; the state that was kept or read last; places with what this page cannot read.
    this.own = false;
    this.state = FRESH;
    this.broken = new Set();
  }

  // Whether another window has written this window's work, and whether one has removed it.
  get taken() {
    const note = allowed(() => localStorage.getItem(NOTE + this.id), null);
    return note !== null && note !== this.seen;
  }

  get gone() {
    return this.seen !== null && allowed(() => localStorage.getItem(WORK + this.id), "") === null;
  }

  // Says what came of it: "kept"; "parted" where another window goes on with the same work, and this one is kept beside it; "gone" where
  // another window has removed it; "none" where there is no room. A window that has changed nothing leaves the work to the one that has.
  save(app, more, force = false) {
    if (this.gone && !force) return "gone";
    const parted = this.taken;
    if (!force && app.state === this.state && (parted || !this.own)) return "kept";
    const before = { id: this.id, seen: this.seen };
    if (parted || force || this.older) Object.assign(this, { id: `${this.page}-${++this.count}`, seen: null });
    if (!this.write(app, more)) {
      Object.assign(this, before);
      this.leave();
      return "none";
    }
    if (this.older) this.remove(before.id);
    this.older = false;
    return parted ? "parted" : "kept";
  }

  write(app, more) {
    const size = app.state.records.reduce((sum, { name, letters }) => sum + RECORD + name.length + (letters?.length ?? 0), 0);
    return (size > MOST_CHARACTERS ? [] : UNDOS).some((undos) =>
      allowed(() => {
        localStorage.setItem(WORK + this.id, JSON.stringify(packedApp(app, undos, more)));
        const note = JSON.stringify({ format: FORMAT, by: `${this.page} ${++this.count}`, when: Date.now(), ...noted(app.state) });
        localStorage.setItem(NOTE + this.id, note);
        Object.assign(this, { seen: note, state: app.state, own: true });
        localStorage.setItem(LATEST, this.id);
        allowed(() => sessionStorage.setItem(MINE, this.id));
        return true;
      }, false),
    );
  }

  // What was kept before is not what is drawn now: it must not come back as if it were.
  leave() {
    const told = allowed(() => (localStorage.setItem(LATEST, NOBODY), true), false);
    if (!told) allowed(() => localStorage.removeItem(LATEST));
    allowed(() => sessionStorage.removeItem(MINE));
  }

  remove(id) {
    allowed(() => localStorage.removeItem(WORK + id));
    allowed(() => localStorage.removeItem(NOTE + id));
  }

  // Nothing of any page is left on this device.
  forget() {
    for (const store of [() => localStorage, () => sessionStorage]) {
      allowed(() => {
        for (const key of Object.keys(store())) if (key.startsWith(PREFIX)) store().removeItem(key);
      });
    }
    this.seen = null;
  }

  // The next page in this window begins with other work.
  turnTo(id) {
    allowed(() => sessionStorage.setItem(MINE, id));
  }

  // This window's work from before a reload, else what was kept last, with its states made whole again; null if there is none.
  restore() {
    return allowed(() => {
      const id = this.first();
      if (id === null) return null;
      const kept = readable(this.raw(id));
      if (kept === null) this.broken.add(id);
      else {
        const own = allowed(() => sessionStorage.getItem(MINE), null) === id;
        Object.assign(this, { id, seen: localStorage.getItem(NOTE + id) ?? "", older: id === OLDER, own, state: kept.state });
      }
      return kept;
    }, null);
  }

  first() {
    const there = (id) => id !== null && isWork(localStorage.getItem(WORK + id));
    const wanted = [allowed(() => sessionStorage.getItem(MINE), null), localStorage.getItem(LATEST)];
    // Work of an older page has nothing that points to it.
    const only = wanted[1] === null && this.ids().length === 1 && there(OLDER) ? OLDER : null;
    return [...wanted, only].find(there) ?? null;
  }

  ids() {
    const keys = Object.keys(localStorage).filter((key) => key.startsWith(WORK) && isWork(localStorage.getItem(key)));
    return keys.map((key) => key.slice(WORK.length));
  }

  // What else is kept on this device: how many outlines, a name, and when, the latest first; without them if this page cannot read it.
  others() {
    return allowed(() => {
      const found = this.ids().filter((id) => id !== this.id || this.seen === null).map((id) => ({ id, ...this.about(id) }));
      return found.sort((a, b) => (b.when ?? 0) - (a.when ?? 0));
    }, []);
  }

  about(id) {
    const note = allowed(() => JSON.parse(localStorage.getItem(NOTE + id)), null);
    if (this.broken.has(id) || (note && note.format !== FORMAT)) return { readable: false };
    if (note) return { readable: true, outlines: Number(note.outlines), title: String(note.title ?? ""), when: Number(note.when) };
    const kept = readable(this.raw(id));
    return kept ? { readable: true, ...noted(kept.state) } : { readable: false };
  }

  // The work as it is kept.
  raw(id) {
    return localStorage.getItem(WORK + id);
  }
}
