// Units: for each party, what a cell's column and row are at the two ends of the chart. Cells stay what is drawn and sent.

import { SIDE } from "./chart.js";
import { MESSAGES, text } from "./text.js";

export const PARTIES = ["knee", "ankle"];
const LAST = SIDE - 1;
const NONE = { low: null, high: null, unit: "" };
export const NO_UNITS = { knee: { column: NONE, row: NONE }, ankle: { column: NONE, row: NONE } };

// An axis has a measure if both of its ends have a number.
const measured = ({ low, high }) => low !== null && high !== null && low !== high;

// The value at a cell, or between cells, with as many digits as tell two cells apart.
export function valueAt(axis, n) {
  if (!measured(axis)) return "";
  const step = Math.abs(axis.high - axis.low) / LAST;
  const digits = Math.min(6, Math.max(0, Math.ceil(-Math.log10(step))));
  const value = axis.low + ((axis.high - axis.low) * n) / LAST;
  const number = new Intl.NumberFormat(MESSAGES.lang, { minimumFractionDigits: digits, maximumFractionDigits: digits, useGrouping: false });
  return number.format(value).replace(/^-(0[.,]?0*)$/, "$1");
}

export const withUnit = (axis, n) => [valueAt(axis, n), axis.unit].filter((word) => word !== "").join("\u00a0");

// A cell in the units of both axes, as far as there are any.
export function inUnits({ column, row }, [c, r]) {
  return [measured(column) && withUnit(column, c), measured(row) && withUnit(row, r)].filter(Boolean).join(", ");
}

// An axis in words: its name, and its unit where it has one.
export function axisName(party, kind, axis) {
  const name = text(`axis.${kind}.${PARTIES[party]}`);
  return measured(axis) && axis.unit ? text("axis.unit", { name, unit: axis.unit }) : name;
}

// Both ends of both axes in words, or that there are none.
export function told({ column, row }) {
  const ends = (axis) => (measured(axis) ? text("units.ends", { low: withUnit(axis, 0), high: withUnit(axis, LAST) }) : text("units.none"));
  return text("units.told", { column: ends(column), row: ends(row) });
}

// Whether any axis of any party has a measure.
export const areUnits = (units) => Object.values(units).some(({ column, row }) => measured(column) || measured(row));

// As lines of a text: `# units party=knee angle=0..127 angle-unit=deg load=0..1270 load-unit=N`.
export function unitLines(units) {
  return PARTIES.flatMap((party) => {
    const { column, row } = units[party];
    const part = (name, axis) => {
      if (!measured(axis)) return "";
      return ` ${name}=${axis.low}..${axis.high}` + (axis.unit ? ` ${name}-unit=${axis.unit}` : "");
    };
    const said = part("angle", column) + part("load", row);
    return said ? [`# units party=${party}${said}`] : [];
  });
}

// A unit is one word without a `#`.
export const unitOf = (word) => word.replace(/[\s#]/g, "").slice(0, 12);

const NUMBER = "-?\\d+(?:\\.\\d+)?(?:e[-+]?\\d+)?";
const ENDS = new RegExp(`^(${NUMBER})\\.\\.(${NUMBER})$`);

// The party and the units of such a line, or null if it is none.
export function unitsOf(line) {
  const found = /^[ \t\f]*#[ \t]*units[ \t]+(.*)$/.exec(line);
  if (!found) return null;
  const words = Object.fromEntries(found[1].split(/[ \t\f]+/).filter((word) => word.includes("=")).map((word) => split(word)));
  if (!PARTIES.includes(words.party)) return null;
  const axis = (name) => {
    const ends = ENDS.exec(words[name] ?? "");
    return ends ? { low: Number(ends[1]), high: Number(ends[2]), unit: unitOf(words[`${name}-unit`] ?? "") } : NONE;
  };
  return [words.party, { column: axis("angle"), row: axis("load") }];
}

const split = (word) => [word.slice(0, word.indexOf("=")), word.slice(word.indexOf("=") + 1)];

// What was kept, or none where it is not what it should be.
export function wholeUnits(kept) {
  const number = (n) => (typeof n === "number" && Number.isFinite(n) ? n : null);
  const axis = (found) => ({ low: number(found?.low), high: number(found?.high), unit: unitOf(String(found?.unit ?? "")) });
  return Object.fromEntries(PARTIES.map((party) => [party, { column: axis(kept?.[party]?.column), row: axis(kept?.[party]?.row) }]));
}
