// Images: 622 bytes with one outline and a checksum, as a controller's place is stored. The library writes and reads them.

import { atWork } from "./judge.js";

export const IMAGE = 622;
const HEAD = 6;
const NOT_AN_IMAGE = 26;

// What a holder saves with the drawing at work: its border from W. With nothing at work it saves an empty place.
export function imageOf(engine, drawing) {
  const own = atWork(engine, drawing);
  if (own) return own.save(0, 0).image;
  return fresh(engine, (holder) => holder.save(0, 0).image);
}

// The outline whose image these bytes are, or null if they are no image. One without letters is an empty place.
export function ofImage(engine, bytes) {
  if (bytes.length !== IMAGE) return null;
  const { refusal } = fresh(engine, (holder) => holder.restore(0, 0, bytes));
  if (refusal?.number === NOT_AN_IMAGE) return null;
  const count = bytes[4] | (bytes[5] << 8);
  return { name: "", start: [bytes[2], bytes[3]], letters: bytes.slice(HEAD, HEAD + count) };
}

function fresh(engine, work) {
  const holder = engine.holder();
  try {
    return work(holder);
  } finally {
    holder.free();
  }
}
