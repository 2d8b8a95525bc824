// Readings: the point under the pointer, between cells, as sensors would give it.

import { by, write } from "../dom.js";
import { atWork } from "../judge.js";
import { signs } from "../signs.js";
import { stripPath, widthAt } from "../strip.js";
import { element, polyline, put } from "../svg.js";
import { text } from "../text.js";
import { inUnits } from "../units.js";

// Points across the loupe, and how many strips wide it is.
const ACROSS = 31;
const MIDDLE = (ACROSS - 1) / 2;
const STRIPS = 4;
const WORDS = ["inside", "undecided", "outside"];

export function readings(page) {
  const { app, engine } = page;
  let point = [0, 0];
  const loupe = WORDS.map((word) => element("path", { class: `said-${word}` }));
  by("loupe").append(element("rect", { class: "off", width: ACROSS, height: ACROSS }), ...loupe);
  by("loupe").append(element("path", { class: "loupe-cross", d: `M${ACROSS / 2} 12v7M12 ${ACROSS / 2}h7` }));
  signs(by("reading-signs"), ["inside", "undecided", "outside", "strip"]);
  for (const id of ["angle", "shin"]) {
    by(id).addEventListener("input", () => {
      point = [by("angle").valueAsNumber, by("shin").valueAsNumber];
      page.show();
    });
  }

  // The library's word for a reading: inside, undecided or outside; "off" where it is refused; "nothing" where no block is at work.
  const located = (holder, [angle, load]) => {
    if (holder === null) return "nothing";
    const reply = holder.reading(0, 0, { angle, load });
    return reply.refusal ? "off" : reply.word;
  };

  return {
    pointed(at) {
      point = at.map((n) => Math.round(n * 10000) / 10000);
      by("angle").value = point[0];
      by("shin").value = point[1];
    },
    more(drawing, answer) {
      const word = located(atWork(engine, drawing), point);
      const points = point.every(Number.isFinite) ? [{ name: `reading said-${word}`, at: point.map((n) => n + 0.5), r: 5 }] : [];
      if (answer.kind !== "taken") return { points };
      return { points, plain: true, paths: { strip: stripPath(answer.hull), "strip-line": polyline(answer.hull, 0.5) } };
    },
    show(drawing, answer) {
      const holder = atWork(engine, drawing);
      write(by("reading-units"), point.every(Number.isFinite) ? inUnits(page.units, point) : "");
      const step = answer.hull ? (STRIPS * widthAt(answer.hull, point)) / ACROSS : 1 / 64;
      enlarge(loupe, point, step, (at) => located(holder, at));
      write(by("loupe-text"), text("loupe.text", { width: (step * ACROSS).toPrecision(2) }));
    },
    headline(drawing) {
      const word = located(atWork(engine, drawing), point);
      const kind = { inside: "taken", outside: "refused", undecided: "near" }[word] ?? "none";
      return { kind, what: text(`reading.${word}`), advice: text(`reading.${word}.text`) };
    },
    kept: () => point,
    restore(kept) {
      if (Array.isArray(kept) && kept.length === 2 && kept.every(Number.isFinite)) this.pointed(kept);
    },
  };

  // Asks the library about each point of the loupe.
  function enlarge(paths, [x, y], step, word) {
    const found = Object.fromEntries(WORDS.map((name) => [name, ""]));
    for (let row = 0; row < ACROSS; row++) {
      const said = Array.from({ length: ACROSS }, (_, col) => word([x + (col - MIDDLE) * step, y - (row - MIDDLE) * step]));
      for (let from = 0, to; from < ACROSS; from = to) {
        for (to = from + 1; said[to] === said[from]; ) to++;
        if (said[from] in found) found[said[from]] += `M${from} ${row}h${to - from}v1h${from - to}z`;
      }
    }
    WORDS.forEach((name, i) => put(paths[i], "d", found[name]));
  }
}
