// Last year and this year: two blocks on one chart, what the comparison says, and the inner one's edges.

import { walk } from "../border.js";
import { by, write } from "../dom.js";
import { judge } from "../judge.js";
import { signs } from "../signs.js";
import { cellsPath, polyline } from "../svg.js";
import { count, text } from "../text.js";
import { inUnits, PARTIES, told } from "../units.js";

export function years(page) {
  const { app, engine } = page;
  signs(by("years-signs"), ["cells", "last", "inner"]);
  by("years-keep").addEventListener("click", () => app.change(app.withLast(app.drawing)));
  by("years-swap").addEventListener("click", () => app.last && app.change(swapped(app)));
  by("years-drop").addEventListener("click", () => app.change(app.withLast(null)));

  // The library's comparison of two taken blocks, with the inner one's hull; null where one is not taken.
  const compared = (last, answer) => {
    const before = last && judge(engine, last);
    if (before?.kind !== "taken" || answer.kind !== "taken") return null;
    const { word, inner } = engine.compare(before.reply, answer.reply);
    return { word, hull: [null, before.hull, answer.hull][inner], inner };
  };

  return {
    beside: () => (app.last ? [app.last] : []),
    more(drawing, answer) {
      const { last } = app;
      if (!last) return {};
      const { hull } = compared(last, answer) ?? {};
      const ghost = last.cells ? cellsPath(last.cells) : "";
      const other = last.letters ? polyline(walk(last.start, last.letters)) : "";
      return { plain: answer.kind === "taken", paths: { ghost, other, inner: hull ? polyline(hull, 0.5) : "" } };
    },
    show(drawing, answer) {
      const { last } = app;
      by("years-drop").disabled = !last;
      // A block with other units is none of the file that is open.
      by("years-swap").disabled = !last || measures(page) !== "";
      write(by("years-last"), last ? text("years.last", { cells: cellsOf(last), verdict: short(judge(engine, last)) }) : "");
      write(by("years-this"), text("years.this", { cells: cellsOf(drawing), verdict: short(answer) }));
    },
    headline(drawing, answer) {
      const { last } = app;
      const found = compared(last, answer);
      const what = text(found ? `compare.${found.word}` : last ? "compare.refused" : "compare.none");
      return { kind: "none", what, advice: found ? text(`inner.${found.inner}`) : text("compare.how"), meaning: measures(page) };
    },
  };
}

// The two blocks change places.
function swapped(app) {
  return app.practising ? { ...app.with(app.last), practiceLast: app.drawing } : { ...app.with(app.last), last: app.drawing };
}

// Cells are compared. Where the years have different units, equal cells stand for different angles and loads, which is told.
function measures({ app, units }) {
  const before = app.state.lastUnits[PARTIES[app.state.party]];
  const has = (axes) => inUnits(axes, [0, 0]) !== "";
  if (!app.last || app.practising || !has(before) || !has(units) || told(before) === told(units)) return "";
  return text("compare.units", { last: told(before), now: told(units) });
}

const cellsOf = ({ cells }) => count(cells?.count ?? 0, "cell");

function short({ kind, reply }) {
  if (kind === "refused") return text("short.refused", { number: reply.refusal.number });
  return text(`short.${kind}`);
}
