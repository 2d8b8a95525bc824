// Opening a file: bit by bit, so that the page shows how far it is, and up to a fault.

import { by, write } from "./dom.js";
import { contents, Fault } from "./files.js";
import { count, text } from "./text.js";

// Milliseconds of work between two looks at the page.
const AT_ONCE = 40;
const LONG_ENOUGH = 60_000;
const pause = () => new Promise((done) => setTimeout(done));

// The drawings of a file, the units that it has, and the words of its fault, if it has one.
export async function opened(engine, bytes, name) {
  const found = { drawings: [], units: {}, image: false, fault: null };
  let last = performance.now();
  try {
    for (const { drawing, units, image } of contents(engine, bytes, name)) {
      if (drawing) found.drawings.push(drawing);
      if (units) found.units[units[0]] = units[1];
      if (image) found.image = true;
      if (performance.now() - last < AT_ONCE) continue;
      write(by("progress"), text("open.progress", { outlines: count(found.drawings.length, "outline") }));
      by("progress").hidden = false;
      await pause();
      last = performance.now();
    }
    if (found.drawings.length === 0) found.fault = text("fault.none");
  } catch (error) {
    if (!(error instanceof Fault)) throw error;
    found.fault = error.message;
  } finally {
    by("progress").hidden = true;
  }
  return found;
}

// Gives bytes to the browser as a file.
export function download(bytes, name) {
  const link = document.createElement("a");
  link.href = URL.createObjectURL(new Blob([bytes], { type: "application/octet-stream" }));
  link.download = name;
  link.click();
  // Some browsers read the bytes after the click.
  setTimeout(() => URL.revokeObjectURL(link.href), LONG_ENOUGH);
}
