// Calls on a holder, one by one, each with its reply in words. The page keeps no outline: what is at work, the holder says.

import { SIDE } from "./chart.js";
import { at, count, text } from "./text.js";

const PARTIES = ["knee", "ankle"];
// Calls that are kept for a reload. With more than this the holder begins afresh then.
const MOST = 20000;

export class Calls {
  constructor(engine) {
    this.engine = engine;
    this.fresh();
  }

  fresh() {
    this.holder?.free();
    this.holder = this.engine.holder();
    this.made = [];
    // Call and reply of each line, in words; adds in a row are one line.
    this.lines = [];
    // What is being sent for each party: start, letters, and how many were added.
    this.drafts = [null, null];
    // A number for each place that grows whenever it may have changed.
    this.changes = Array(8).fill(0);
  }

  // Makes a call by its name and arguments, and writes it down.
  call(name, party, ...rest) {
    const reply = this.holder[name](party, ...rest);
    this.made.push([name, party, ...rest]);
    this.follow(name, party, rest, reply);
    this.log(name, party, rest, reply);
    return reply;
  }

  // What the call did to the draft and to the place.
  follow(name, party, rest, reply) {
    if (name === "begin" && reply.done) this.drafts[party] = { start: [rest[0].col, rest[0].row], count: 0 };
    if (name === "add" && reply.done) this.drafts[party].count++;
    if ((name === "drop" && reply.done) || name === "close") this.drafts[party] = null;
    if (name === "close" || name === "clear") this.changes[4 * party + rest[0]]++;
  }

  log(name, party, rest, reply) {
    const last = this.lines[this.lines.length - 1];
    const adding = name === "add" && reply.done ? party : null;
    if (adding !== null && last?.adding === party) last.letters += rest[0];
    else this.lines.push({ name, party, rest, reply, adding, letters: name === "add" ? String(rest[0]) : "" });
  }

  // What is at work at a place, by the library's rows: runs of cells. None if nothing is.
  rows(party, place) {
    const runs = [];
    for (let row = 0; row < SIDE; row++) {
      const { refusal, word, first, last } = this.holder.row(party, place, row);
      if (refusal) return null;
      if (word === "columns") runs.push([row, first, last]);
    }
    return runs;
  }

  // The drawing of its edges, by the library's pieces: corners in columns and rows.
  drawing(party, place) {
    const corners = [];
    for (let position = 0; ; position++) {
      const { word, point } = this.holder.piece(party, place, position);
      if (word !== "move" && word !== "line") return word === "close" ? [...corners, corners[0]] : corners;
      corners.push([point.x, point.y]);
    }
  }

  kept() {
    return this.made.length > MOST ? [] : this.made;
  }

  restore(made) {
    for (const [name, ...rest] of made) this.call(name, ...rest);
  }
}

const cellOf = ({ col, row }) => at([col, row]);

// A line of the log in words: the call, then the reply.
export function said({ name, party, rest, reply, letters }) {
  const who = text(`party.${PARTIES[party]}`);
  return text("log.line", { call: callWords(name, who, rest, letters), reply: replyWords(reply) });
}

function callWords(name, who, rest, letters) {
  if (name === "begin") return text("log.begin", { who, start: cellOf(rest[0]) });
  if (name === "add") return text(letters.length > 1 ? "log.adds" : "log.add", { who, letters, count: count(letters.length, "letters") });
  if (name === "drop") return text("log.drop", { who });
  return text(`log.${name}`, { who, place: rest[0], what: argument(rest[1]) });
}

// A cell, a reading, or a number.
function argument(what) {
  if (typeof what !== "object") return what;
  return what.angle === undefined ? cellOf(what) : at([what.angle, what.load]);
}

function replyWords(reply) {
  if (reply.refusal) return text("log.refused", { number: reply.refusal.number, name: text(`refusal.${reply.refusal.number}`) });
  if (reply.done) return text("log.done");
  if (reply.anchor) return text(`log.${reply.word}`, { edges: count(reply.edgeCount, "edge"), anchor: cellOf(reply.anchor) });
  if (reply.word === "columns") return text("log.columns", reply);
  if (reply.point) return text(reply.word === "move" ? "log.move" : "log.line.reply", { x: reply.point.x, y: reply.point.y });
  return text(reply.word === "close" ? "log.closing" : `log.${reply.word}`);
}
