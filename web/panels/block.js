// The block: its outline, examples, files, and units.

import { by, write } from "../dom.js";
import { BLANK, named, ofOutline } from "../drawing.js";
import { Fault, fittingFile, lines, textFile } from "../files.js";
import { imageOf } from "../image.js";
import { tell, unsay } from "../notice.js";
import { download, opened } from "../opening.js";
import { ON_CHART, signs } from "../signs.js";
import { at, blockName, count, text } from "../text.js";
import { areUnits, NO_UNITS, PARTIES, unitOf } from "../units.js";

// The outlines that ship with the page.
export const shipped = (id) => [...lines(by(id).textContent.split("\n"))].map(({ drawing }) => drawing);

export function block(page) {
  const { app } = page;
  const examples = [...shipped("specimens"), ...shipped("training")];
  signs(by("signs"), ON_CHART);
  list(examples);
  listen(page, examples);
  listenToUnits(page);

  return {
    more: () => ({}),
    show(drawing, { kind }) {
      const { records, at: place, file } = app.state;
      write(by("outline-head"), head(drawing));
      const shown = Array.from(drawing.letters ?? [], (letter) => (letter < 10 ? letter : `[${letter}]`)).join("");
      if (by("letters").value !== shown) by("letters").value = shown;
      const of = { at: place, count: records.length, file };
      write(by("record"), text(app.practising ? "record.practice" : file ? "record.file" : "record.at", of));
      by("back").disabled = place === 0;
      by("on").disabled = place === records.length - 1;
      // What is on the sheet for practice is none of the outlines: it cannot be saved as one, nor can the outline behind it be removed.
      by("save-image").disabled = app.practising || (kind !== "taken" && kind !== "blank");
      by("remove").disabled = app.practising;
      // What is being typed stays as it is, and only that: another outline has another name, wherever the focus is.
      const said = document.activeElement === by("name") ? typed() : by("name").value;
      if (said !== drawing.name) by("name").value = drawing.name;
      by("name").disabled = app.practising;
      showUnits(page, by("units-home"));
    },
  };
}

function head({ start, letters }) {
  return letters ? text("outline.head", { start: at(start), letters: count(letters.length, "letters") }) : text("outline.none");
}

function list(examples) {
  const choice = (words, value) => Object.assign(document.createElement("option"), { textContent: words, value });
  by("example").replaceChildren(choice(text("example.none"), "-1"), ...examples.map(({ name }, i) => choice(blockName(name), String(i))));
}

function listen(page, examples) {
  const { app } = page;
  // An example is put on the sheet for practice: the outline stays as it is.
  const example = (index) => {
    if (!examples[index]) return;
    by("example").value = String(index);
    const { start, letters, name } = examples[index];
    app.change({ ...app.state, practice: ofOutline({ start, letters, name: blockName(name) }), task: false });
    page.visit();
  };
  const go = (step) => {
    if (!app.state.records[app.state.at + step]) return;
    app.set({ ...app.state, at: app.state.at + step, practice: null });
    page.visit();
  };
  const clicks = {
    "example-back": () => example(Math.max(0, Number(by("example").value) - 1)),
    "example-on": () => example(Number(by("example").value) + 1),
    "back": () => go(-1),
    "on": () => go(1),
    "add": () => added(app, BLANK),
    "remove": () => (removed(app), page.visit()),
    "sheet-back": () => (app.change({ ...app.state, practice: null }), page.visit()),
    "sheet-add": () => added(app, app.drawing),
    "print": () => print(),
    "forget": () => tell("forget", text("forget.ask"), [{ words: text("forget.yes"), work: () => page.forget() }]),
    "save-text": () => save(app, textFile(app.state.records, app.state.units), ".txt", sheetWords(app)),
    "save-fitting": () => save(app, fittingFile(app.state.records), ".fit", [text("saved.fitting"), ...sheetWords(app)]),
    "save-image": () => save(app, imageOf(page.engine, app.drawing), ".img", [text(app.drawing.letters ? "saved.image" : "saved.place")]),
  };
  for (const [id, work] of Object.entries(clicks)) by(id).addEventListener("click", () => told(work));
  by("example").addEventListener("change", () => example(Number(by("example").value)));
  by("name").addEventListener("input", () => app.change(app.with(named(app.drawing, typed())), "name"));
  by("name").addEventListener("change", () => page.save());
  by("load").addEventListener("change", () => open(page, by("load").files[0]));
}

// The name in its field, as it is kept.
const typed = () => by("name").value.replaceAll("#", "").trim();

// Behind the other outlines; in place of the one that there is at first, where nothing is drawn in it yet.
function added(app, drawing) {
  const { records } = app.state;
  const others = drawing !== BLANK && records.length === 1 && records[0] === BLANK ? [] : records;
  app.change({ ...app.state, records: [...others, drawing], at: others.length, practice: null });
}

// Takes the outline that is shown out of the list. There always is one.
function removed(app) {
  const { records, at: place } = app.state;
  const left = records.filter((_, i) => i !== place);
  const at_ = Math.max(0, Math.min(place, left.length - 1));
  app.change({ ...app.state, records: left.length > 0 ? left : [BLANK], at: at_, practice: null });
}

// Shows a fault of what is saved where there is one.
function told(work) {
  try {
    unsay("file");
    work();
  } catch (error) {
    if (!(error instanceof Fault)) throw error;
    tell("file", error.message);
  }
}

// Opens the chosen file. A fault is told with the file's name, and the outlines before it are opened.
export async function open(page, file) {
  if (!file) return;
  const bytes = new Uint8Array(await file.arrayBuffer());
  by("load").value = "";
  unsay("file");
  unsay("units");
  const { drawings, units, image, fault } = await opened(page.engine, bytes, file.name);
  const outlines = count(drawings.length, "outline");
  const before = page.app.state.units;
  if (drawings.length > 0) {
    const { app } = page;
    // An image is one place of a controller: it is added to what is open.
    if (image) added(app, named(drawings[0], file.name.replaceAll("#", "")));
    else {
      const read = { records: drawings, at: 0, file: file.name, part: fault !== null, units: { ...NO_UNITS, ...units } };
      app.change({ ...app.state, ...read, practice: null });
    }
    page.visit();
  }
  const key = drawings.length > 0 ? "file.some" : "file.none";
  if (fault !== null) tell("file", text(key, { file: file.name, fault, outlines }));
  if (drawings.length > 0) tellUnits(page, file.name, { units, image, before });
}

// A file has its own units or none. Those from before are offered, and never taken over by themselves.
function tellUnits({ app }, file, { units, image, before }) {
  if (!areUnits(before) || areUnits(units)) return;
  if (image) return tell("units", text("units.image", { file }), [], false);
  const again = { words: text("units.before"), work: () => app.change({ ...app.state, units: before }) };
  tell("units", text("units.gone", { file }), [again], false);
}

// The file keeps its name, its ending is that of the form, and what was opened up to a fault is no whole file.
function save(app, bytes, ending, words) {
  const { file, part } = app.state;
  const name = (file.replace(/\.[^.]*$/, "") || "block") + (part ? "-part" : "") + ending;
  download(bytes, name);
  if (words.length > 0) tell("file", [text("saved", { name }), ...words].join(" "), [], false);
}

// Files have the outlines, whatever is on the chart.
const sheetWords = (app) => (app.practising ? [text("saved.sheet")] : []);

const FIELDS = [["column", "low"], ["column", "high"], ["column", "unit"], ["row", "low"], ["row", "high"], ["row", "unit"]];

// Fields of the units of the party that is chosen.
function listenToUnits(page) {
  const { app } = page;
  for (const [axis, part] of FIELDS) {
    const field = by(`${axis}-${part}`);
    field.addEventListener("input", () => {
      const { units } = app;
      const party = PARTIES[app.state.party];
      const next = { ...units[party], [axis]: { ...units[party][axis], [part]: valueOf(field, part) } };
      app.change(app.withUnits({ ...units, [party]: next }), "units");
    });
  }
  for (const radio of document.querySelectorAll('input[name="party"]')) {
    radio.addEventListener("change", () => app.change({ ...app.state, party: PARTIES.indexOf(radio.value) }));
  }
}

// What a field says, as it is kept: a unit, or a number or none.
function valueOf(field, part) {
  if (part === "unit") return unitOf(field.value);
  return Number.isFinite(field.valueAsNumber) ? field.valueAsNumber : null;
}

// The fields stand on the panel whose units they are.
export function showUnits(page, home) {
  const { party } = page.app.state;
  if (by("units-box").parentElement !== home) home.append(by("units-box"));
  for (const radio of document.querySelectorAll('input[name="party"]')) radio.checked = radio.value === PARTIES[party];
  for (const [axis, part] of FIELDS) {
    const field = by(`${axis}-${part}`);
    const value = page.units[axis][part];
    if (valueOf(field, part) !== value) field.value = String(value ?? "");
  }
}
