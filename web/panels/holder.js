// The holder: what knee and ankle have at their places, and the replies, call by call.

import { Calls, said } from "../calls.js";
import { Cells } from "../chart.js";
import { arrows, button, by, write } from "../dom.js";
import { boxOf, cellsPath, polyline, put, thumbnail } from "../svg.js";
import { at, count, text } from "../text.js";

// Lines of the log that are shown.
const MOST_LINES = 200;

export function holder(page) {
  const { app } = page;
  const calls = new Calls(page.engine);
  const places = new Places(page, calls);
  const made = (work) => () => {
    work();
    page.show();
    page.keep();
    by("log").scrollTop = by("log").scrollHeight;
  };
  for (const [id, work] of Object.entries(actions(app, calls, places))) by(id).addEventListener("click", made(work));

  return {
    saidAt([col, row]) {
      const { word } = calls.holder.query(places.party, places.place, { col, row });
      return word ?? "empty";
    },
    more(_, answer) {
      places.party = app.state.party;
      const cells = places.cells(places.party, places.place);
      if (!cells) return {};
      const inner = polyline(calls.drawing(places.party, places.place));
      return { plain: answer.kind === "taken", paths: { ghost: cellsPath(cells), inner } };
    },
    show(drawing) {
      places.party = app.state.party;
      places.show();
      const draft = calls.drafts[places.party];
      const who = text(places.party === 0 ? "party.knee" : "party.ankle");
      const open = draft && { who, start: at(draft.start), letters: count(draft.count, "letters") };
      write(by("draft"), open ? text("draft.open", open) : text("draft.none", { who }));
      for (const id of ["call-send", "call-begin", "call-add", "call-rest"]) by(id).disabled = !drawing.letters;
      showLog(calls);
    },
    headline() {
      const cells = places.cells(places.party, places.place);
      const who = text(places.party === 0 ? "party.Knee" : "party.Ankle");
      const values = { who, place: places.place, cells: count(cells?.count ?? 0, "cell") };
      return { kind: "none", what: text(cells ? "place.work" : "place.empty", values), advice: text("holder.intro") };
    },
    kept: () => ({ made: calls.kept(), party: places.party, place: places.place }),
    restore(kept) {
      calls.restore(kept.made);
      places.choose(kept.party === 1 ? 1 : 0, [0, 1, 2, 3].includes(kept.place) ? kept.place : 0);
    },
  };
}

function actions(app, calls, places) {
  const corner = ([col, row]) => ({ col, row });
  const sent = () => calls.drafts[places.party]?.count ?? 0;
  const begin = () => calls.call("begin", places.party, corner(app.drawing.start));
  const next = () => calls.call("add", places.party, app.drawing.letters[sent() % app.drawing.letters.length]);
  const rest = () => {
    const { letters } = app.drawing;
    while (sent() < letters.length && next().done);
  };
  const close = () => calls.call("close", places.party, places.place);
  const ask = (name, ...what) => calls.call(name, places.party, places.place, ...what);
  return {
    "call-send": () => void (begin().done && (rest(), close())),
    "call-begin": begin,
    "call-add": next,
    "call-rest": rest,
    "call-close": close,
    "call-drop": () => calls.call("drop", places.party),
    "call-clear": () => ask("clear"),
    "call-query": () => ask("query", corner(app.cursor)),
    "call-row": () => ask("row", app.cursor[1]),
    "call-reading": () => ask("reading", { angle: app.cursor[0] + 0.25, load: app.cursor[1] }),
    "call-piece": () => {
      for (let position = 0; ["move", "line", "close"].includes(ask("piece", position).word); position++);
    },
    "log-clear": () => calls.fresh(),
  };
}

// Lines are written once; the last one may grow.
function showLog(calls) {
  const list = by("log");
  const from = Math.max(0, calls.lines.length - MOST_LINES);
  const lines = calls.lines.slice(from);
  while (list.children.length > lines.length) list.firstChild.remove();
  list.start = from + 1;
  lines.forEach((line, i) => {
    const row = list.children[i] ?? list.appendChild(document.createElement("li"));
    row.className = line.reply.refusal ? "refusal" : "";
    write(row, said(line));
  });
}

// The eight places to choose from.
class Places {
  constructor(page, calls) {
    this.page = page;
    this.calls = calls;
    this.party = 0;
    this.place = 0;
    this.known = [];
    // The axes are those of the party whose place is chosen.
    const choose = (made) => {
      this.choose(Number(made.dataset.party), Number(made.dataset.place));
      page.app.set({ ...page.app.state, party: this.party });
    };
    this.buttons = [0, 1].flatMap((party) =>
      [0, 1, 2, 3].map((place) => button([], { role: "radio", "data-party": party, "data-place": place, id: `place-${party}-${place}` })),
    );
    [0, 1].forEach((party) => {
      const who = document.createElement("span");
      who.textContent = text(party === 0 ? "party.Knee" : "party.Ankle");
      by("places").append(who, ...this.buttons.slice(4 * party, 4 * party + 4));
    });
    for (const made of this.buttons) made.addEventListener("click", () => choose(made));
    arrows(by("places"), choose);
  }

  choose(party, place) {
    this.party = party;
    this.place = place;
  }

  // The cells at work at a place, asked anew where a call may have changed them.
  cells(party, place) {
    const n = 4 * party + place;
    const change = [this.calls.holder, this.calls.changes[n]];
    const known = this.known[n];
    if (known?.change[0] === change[0] && known.change[1] === change[1]) return known.cells;
    const runs = this.calls.rows(party, place);
    const run = ([row, first, last]) => Array.from({ length: last - first + 1 }, (_, i) => [first + i, row]);
    const cells = runs && Cells.of(runs.flatMap(run));
    this.known[n] = { change, cells };
    return cells;
  }

  show() {
    const box = boxOf(this.buttons.map((_, n) => this.cells(n >> 2, n & 3)));
    for (const made of this.buttons) {
      const [party, place] = [Number(made.dataset.party), Number(made.dataset.place)];
      const chosen = party === this.party && place === this.place;
      made.setAttribute("aria-checked", String(chosen));
      made.tabIndex = chosen ? 0 : -1;
      const cells = this.cells(party, place);
      if (made.firstChild) put(made.firstChild, "viewBox", box);
      if (made.cells === cells && made.childNodes.length > 0) continue;
      made.cells = cells;
      const who = text(party === 0 ? "party.knee" : "party.ankle");
      made.setAttribute("aria-label", text(cells ? "place.work" : "place.empty", { who, place, cells: count(cells?.count ?? 0, "cell") }));
      made.replaceChildren(thumbnail(cells, box), String(place));
    }
  }
}
