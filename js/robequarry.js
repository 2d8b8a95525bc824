// Robequarry for JavaScript, over the proved library as WebAssembly (`./build wasm32` writes target/wasm32/robequarry.wasm).
//
// It works in browsers, in bundles and in Node; node.js beside it also reads the module from a file. Refusals are values. A TypeError is
// thrown only for an argument that is none: not a number, not whole where it must be, or beyond the width that the call takes. A list of
// any length gets its answer. robequarry.d.ts has the types, and include/robequarry.h says what each call does.

import { REFUSALS, WORDS as TOLD } from "./texts.js";

export const version = '0.4.0';

export const limits = Object.freeze({
  side: 255, // columns of cells on the chart, and rows
  letters: 612, // letters of an outline at most
  mostEdges: 100, // edges of a taken outline at most
  listNumbers: 2032, // numbers of a list of edges at most, where one is passed: two an edge
  parties: 2, // of a holder: 0 the knee, 1 the ankle
  places: 4, // of a party, from 0
  layers: 16, // of a pile, from 0
  imageBytes: 622, // of an image of an outline
  frameBody: 1024, // bytes that a frame carries at most
  frameBytes: 8, // of a frame besides its body
});

// The fields that a refusal has, by its name. Where a comparison refuses, `place` is which list, and `compare` says so.
const FIELDS = {
  letter: ['place'],
  offChart: ['place'],
  touches: ['place'],
  backStep: ['piece', 'place'],
  dent: ['piece', 'place', 'length', 'cell'],
  section: ['piece', 'place'],
};

const WORDS = [
  null, 'inside', 'outside', 'taken', 'same', 'none', 'columns', 'undecided', 'move', 'line', 'close', 'equal', 'firstWithinSecond',
  'secondWithinFirst', 'noCommonCell', 'crossing', 'more',
];

/** The sentence of a refusal, by its number: for a log, or for a person. */
export function refusalText(number) {
  return REFUSALS[number]?.[1] ?? 'There is no such refusal.';
}

/** The sentence of a reply's word, by its number. */
export function wordText(number) {
  return TOLD[number]?.[1] ?? 'There is no such word.';
}

// Bytes, as include/robequarry.h has them: a reply; a holder's four arrays and a pile's two, one after the other.
const REPLY = 14;
const HOLDER = { letters: 0, rows: 1224, numbers: 6324, heads: 10324, size: 10416 };
const PILE = { rows: 0, state: 8160, size: 8164 };
const POINT = 8;
const WITNESS = 6;
const PAGE = 65536;
const CALL = 11;

// One more than the library takes of each kind of list: a list that is cut there is refused as the whole one would be.
const MOST = {
  letters: limits.letters + 1,
  numbers: limits.listNumbers + 1,
  image: limits.imageBytes + 1,
  frame: limits.frameBody + limits.frameBytes + 1,
};

// Arguments.

function whole(value, low, high, name) {
  if (!Number.isInteger(value) || value < low || value > high) {
    throw new TypeError(`${name} must be a whole number from ${low} to ${high}, not ${shown(value)}`);
  }
  return value;
}

function shown(value) {
  return typeof value === 'string' ? JSON.stringify(value) : typeof value === 'object' && value !== null ? 'an object' : String(value);
}

const u8 = (value, name) => whole(value, 0, 255, name);
const u16 = (value, name) => whole(value, 0, 65535, name);
const i16 = (value, name) => whole(value, -32768, 32767, name);

function real(value, name) {
  if (typeof value !== 'number') throw new TypeError(`${name} must be a number, not ${shown(value)}`);
  return value;
}

function record(value, name) {
  if (typeof value !== 'object' || value === null) throw new TypeError(`${name} must be an object, not ${shown(value)}`);
  return value;
}

function pair(value, name) {
  record(value, name);
  return [u16(value.col, `${name}.col`), u16(value.row, `${name}.row`)];
}

function isList(value) {
  return Array.isArray(value) || (ArrayBuffer.isView(value) && !(value instanceof DataView));
}

// Letters as bytes: from a string of digits, or from numbers.
function lettersOf(value, name) {
  if (typeof value === 'string') {
    const bad = value.search(/[^0-9]/);
    if (bad >= 0) throw new TypeError(`${name} must be digits, and ${shown(value[bad])} at place ${bad} is none`);
    return Uint8Array.from(value.slice(0, MOST.letters), Number);
  }
  if (value instanceof Uint8Array) return value.subarray(0, MOST.letters);
  if (!isList(value)) throw new TypeError(`${name} must be a string of digits or a list of numbers, not ${shown(value)}`);
  for (let place = 0; place < value.length; place += 1) u8(value[place], `${name}[${place}]`);
  return Uint8Array.from(value.slice(0, MOST.letters));
}

// Edges as numbers, two for each.
function edgesOf(value, name) {
  if (value instanceof Int16Array) return value.subarray(0, MOST.numbers);
  if (!Array.isArray(value)) throw new TypeError(`${name} must be a list of edges {dx, dy} or an Int16Array, not ${shown(value)}`);
  const numbers = new Int16Array(Math.min(2 * value.length, MOST.numbers));
  for (let place = 0; place < value.length; place += 1) {
    const edge = record(value[place], `${name}[${place}]`);
    const dx = i16(edge.dx, `${name}[${place}].dx`);
    const dy = i16(edge.dy, `${name}[${place}].dy`);
    // A typed array ignores what is stored behind its end.
    numbers[2 * place] = dx;
    numbers[2 * place + 1] = dy;
  }
  return numbers;
}

// Bytes of any length.
function bytesIn(value, name) {
  if (value instanceof Uint8Array) return value;
  if (value instanceof ArrayBuffer) return new Uint8Array(value);
  throw new TypeError(`${name} must be a Uint8Array or an ArrayBuffer, not ${shown(value)}`);
}

const imageOf = (value, name) => bytesIn(value, name).subarray(0, MOST.image);

// The memory of a holder or a pile.
function memoryOf(value, size) {
  const bytes = bytesIn(value, 'bytes');
  if (bytes.length !== size) throw new TypeError(`bytes must be ${size} bytes, not ${bytes.length}`);
  return bytes;
}

function outlineOf(value, name) {
  record(value, name);
  return { start: pair(value.start, `${name}.start`), letters: lettersOf(value.letters, `${name}.letters`) };
}

function hullOf(value, name) {
  record(value, name);
  return { anchor: pair(value.anchor, `${name}.anchor`), edges: edgesOf(value.edges, `${name}.edges`) };
}

// Replies.

function refusalOf(reply) {
  const refusal = { number: reply.number, name: REFUSALS[reply.number][0] };
  for (const field of FIELDS[refusal.name] ?? []) {
    refusal[field] = field === 'cell' ? { col: reply.col, row: reply.row } : reply[field];
  }
  return refusal;
}

const refused = (reply) => ({ refusal: refusalOf(reply) });
const done = (reply) => (reply.number !== 0 ? refused(reply) : { done: true });
const word = (reply) => (reply.number !== 0 ? refused(reply) : { word: WORDS[reply.word] });
const cellOf = (reply) => ({ col: reply.col, row: reply.row });

// The memory of one instance, behind the library's own, from __heap_base on. First comes a fixed part for the lists of one call and its
// reply; then blocks for holders and piles, and for what a single call needs besides. A block that is freed is used again.
class Memory {
  #memory;
  #end;
  #free = new Map(); // addresses of free blocks, by size
  #u8 = new Uint8Array(0);
  #u16 = new Uint16Array(0);

  constructor(memory, base) {
    this.#memory = memory;
    this.#end = rounded(base);
  }

  // The bytes. Memory that has grown is another buffer.
  get #bytes() {
    if (this.#u8.buffer !== this.#memory.buffer) {
      this.#u8 = new Uint8Array(this.#memory.buffer);
      this.#u16 = new Uint16Array(this.#memory.buffer);
    }
    return this.#u8;
  }

  // A block of so many bytes, at a multiple of 16. If there is no memory for it, nothing has changed.
  take(bytes) {
    const size = rounded(Math.max(bytes, 1));
    const free = this.#free.get(size);
    if (free?.length) return { at: free.pop(), size };
    const missing = this.#end + size - this.#memory.buffer.byteLength;
    if (missing > 0) {
      try {
        this.#memory.grow(Math.ceil(missing / PAGE));
      } catch {
        throw new RangeError(`there is no memory for ${bytes} bytes more`);
      }
    }
    const block = { at: this.#end, size };
    this.#end += size;
    return block;
  }

  give({ at, size }) {
    if (at + size === this.#end) this.#end = at;
    else if (this.#free.has(size)) this.#free.get(size).push(at);
    else this.#free.set(size, [at]);
  }

  copyIn(at, list) {
    this.#bytes.set(new Uint8Array(list.buffer, list.byteOffset, list.byteLength), at);
  }

  clear(at, bytes) {
    this.#bytes.fill(0, at, at + bytes);
  }

  move(to, from, bytes) {
    this.#bytes.copyWithin(to, from, from + bytes);
  }

  u8(at, count) {
    return this.#bytes.slice(at, at + count);
  }

  u16(at, count) {
    return new Uint16Array(this.u8(at, 2 * count).buffer);
  }

  i16(at, count) {
    return new Int16Array(this.u8(at, 2 * count).buffer);
  }

  f32(at, count) {
    return new Float32Array(this.u8(at, 4 * count).buffer);
  }

  reply(at) {
    void this.#bytes;
    const [number, wordNumber, place, piece, length, col, row] = this.#u16.subarray(at / 2, (at + REPLY) / 2);
    return { number, word: wordNumber, place, piece, length, col, row };
  }
}

const rounded = (bytes) => Math.ceil(bytes / 16) * 16;

// The functions that a module must have, with its memory.
const FUNCTIONS = [
  'rq_version', 'rq_checksum', 'rq_test', 'rq_loose_query', 'rq_loose_reading', 'rq_border', 'rq_compare', 'rq_witness', 'rq_complete',
  'rq_frame', 'rq_unframe', 'rq_fresh_parts', 'rq_begin_parts', 'rq_add_parts', 'rq_draft_parts', 'rq_drop_parts', 'rq_clear_parts',
  'rq_prepare_parts', 'rq_commit_parts', 'rq_check_parts', 'rq_save_parts', 'rq_prepare_image_parts', 'rq_query_parts', 'rq_row_parts',
  'rq_reading_parts', 'rq_piece_parts', 'rq_call_parts', 'rq_replay_numbers', 'rq_pile_fresh_parts', 'rq_pile_set_parts',
  'rq_pile_empty_parts', 'rq_pile_check_parts', 'rq_pile_check_step_parts', 'rq_pile_query_parts', 'rq_pile_save_parts',
  'rq_pile_restore_parts',
];

// Throws if an instance is of another module, or of another version.
function recognise({ exports }) {
  const lacks = FUNCTIONS.find((name) => typeof exports[name] !== 'function');
  if (lacks || !(exports.memory instanceof WebAssembly.Memory) || !exports.__heap_base) {
    throw new TypeError(`this WebAssembly module is not Robequarry ${version}: it has no ${lacks ?? 'memory of its own'}`);
  }
  const number = exports.rq_version() >>> 0;
  const told = [number >>> 16, (number >>> 8) & 255, number & 255].join('.');
  if (told !== version) throw new TypeError(`this WebAssembly module is Robequarry ${told}, and robequarry.js is for ${version}`);
}

// The library with its memory: what holders and piles call.
class Library {
  #scratch;
  #next;

  constructor(instance) {
    recognise(instance);
    this.calls = instance.exports;
    this.memory = new Memory(instance.exports.memory, instance.exports.__heap_base.value);
    this.dead = new FinalizationRegistry((block) => this.memory.give(block));
    // A reply, the two longest lists that a call takes, and what it writes.
    this.#scratch = this.memory.take(16 + 2 * rounded(2 * MOST.numbers) + rounded(MOST.frame) + 64);
  }

  // Runs a call that writes a reply. `call` gets the reply's address; `list` and `room` are for what it takes and writes.
  reply(call) {
    const at = this.#scratch.at;
    this.#next = at + 16;
    this.memory.clear(at, REPLY);
    call(at);
    return this.memory.reply(at);
  }

  // So many bytes for the call under way, all 0.
  room(bytes) {
    const at = this.#next;
    this.#next += rounded(bytes);
    if (this.#next > this.#scratch.at + this.#scratch.size) throw new Error('robequarry.js: a call has longer lists than were planned for');
    this.memory.clear(at, bytes);
    return at;
  }

  // A list for the call under way: its address and its count, as the library takes them.
  list(list) {
    const at = this.room(list.byteLength);
    this.memory.copyIn(at, list);
    return [at, BigInt(list.length)];
  }

  // Runs a function with a block of its own for each number of bytes, and gives the blocks back.
  during(sizes, run) {
    const blocks = [];
    try {
      for (const bytes of sizes) blocks.push(this.memory.take(bytes));
      return run(...blocks.map((block) => block.at));
    } finally {
      for (const block of blocks.reverse()) this.memory.give(block);
    }
  }

  // Runs a call that writes an image: its bytes, or why it is refused.
  image(call) {
    let image;
    const reply = this.reply((at) => {
      const list = this.room(limits.imageBytes);
      call([list, BigInt(limits.imageBytes)], at);
      image = this.memory.u8(list, limits.imageBytes);
    });
    return reply.number !== 0 ? refused(reply) : { image };
  }

  // Memory that lives as long as its owner does.
  own(owner, bytes) {
    const block = this.memory.take(bytes);
    this.dead.register(owner, block, owner);
    return block;
  }

  disown(owner, block) {
    this.dead.unregister(owner);
    this.memory.give(block);
  }
}

// Memory that a holder or a pile owns: given back by `free`, or some time after nobody refers to the object.
class Owner {
  #library;
  #block;

  constructor(library, bytes) {
    this.#library = library;
    this.#block = library.own(this, bytes);
  }

  _library() {
    return this.#library;
  }

  _at() {
    if (!this.#block) throw new TypeError('this object has been freed');
    return this.#block.at;
  }

  _copyFrom(other) {
    this.#library.memory.move(this._at(), other._at(), this.#block.size);
    return this;
  }

  // The memory itself, as plain bytes.
  _bytes(count) {
    return this.#library.memory.u8(this._at(), count);
  }

  _fill(bytes) {
    this.#library.memory.copyIn(this._at(), bytes);
    return this;
  }

  free() {
    if (this.#block) this.#library.disown(this, this.#block);
    this.#block = null;
  }
}

/** Outlines of two parties: a draft of each, and four places with outlines at work. */
export class Holder extends Owner {
  constructor(library) {
    super(library, HOLDER.size);
    library.calls.rq_fresh_parts(this.#letters(), this.#rows(), this.#numbers(), this.#heads());
  }

  #letters() {
    return this._at() + HOLDER.letters;
  }

  #rows() {
    return this._at() + HOLDER.rows;
  }

  #numbers() {
    return this._at() + HOLDER.numbers;
  }

  #heads() {
    return this._at() + HOLDER.heads;
  }

  #reply(call) {
    const library = this._library();
    return library.reply((at) => call(library.calls, at, library));
  }

  begin(party, start) {
    u8(party, 'party');
    const [col, row] = pair(start, 'start');
    return done(this.#reply((calls, at) => calls.rq_begin_parts(this.#heads(), party, col, row, at)));
  }

  add(party, letter) {
    u8(party, 'party');
    u8(letter, 'letter');
    return done(this.#reply((calls, at) => calls.rq_add_parts(this.#letters(), this.#heads(), party, letter, at)));
  }

  /** Where the party's draft starts, and how many letters it has. */
  draft(party) {
    u8(party, 'party');
    const reply = this.#reply((calls, at) => calls.rq_draft_parts(this.#heads(), party, at));
    return reply.number !== 0 ? refused(reply) : { start: cellOf(reply), letterCount: reply.place };
  }

  drop(party) {
    u8(party, 'party');
    return done(this.#reply((calls, at) => calls.rq_drop_parts(this.#heads(), party, at)));
  }

  clear(party, place) {
    u8(party, 'party');
    u8(place, 'place');
    return done(this.#reply((calls, at) => calls.rq_clear_parts(this.#heads(), party, place, at)));
  }

  close(party, place) {
    u8(party, 'party');
    u8(place, 'place');
    const reply = this.#reply((calls, at) => {
      const word = calls.rq_prepare_parts(this.#letters(), this.#rows(), this.#numbers(), this.#heads(), party, place, at);
      calls.rq_commit_parts(this.#heads(), party, place, word);
    });
    return reply.number !== 0 ? refused(reply) : { word: WORDS[reply.word], anchor: cellOf(reply), edgeCount: reply.place };
  }

  query(party, place, cell) {
    u8(party, 'party');
    u8(place, 'place');
    const [col, row] = pair(cell, 'cell');
    return word(this.#reply((calls, at) => calls.rq_query_parts(this.#rows(), this.#heads(), party, place, col, row, at)));
  }

  row(party, place, row) {
    u8(party, 'party');
    u8(place, 'place');
    u16(row, 'row');
    const reply = this.#reply((calls, at) => calls.rq_row_parts(this.#rows(), this.#heads(), party, place, row, at));
    if (reply.number !== 0 || WORDS[reply.word] === 'none') return word(reply);
    return { word: 'columns', first: reply.col, last: reply.row };
  }

  // The numbers are rounded to the nearest floats of 32 bits, and these are located.
  reading(party, place, reading) {
    u8(party, 'party');
    u8(place, 'place');
    record(reading, 'reading');
    const angle = real(reading.angle, 'reading.angle');
    const load = real(reading.load, 'reading.load');
    return word(this.#reply((calls, at) => calls.rq_reading_parts(this.#numbers(), this.#heads(), party, place, angle, load, at)));
  }

  piece(party, place, position) {
    u8(party, 'party');
    u8(place, 'place');
    u16(position, 'position');
    let x, y;
    const reply = this.#reply((calls, at, library) => {
      const point = library.room(POINT);
      calls.rq_piece_parts(this.#numbers(), this.#heads(), party, place, position, point, at);
      [x, y] = library.memory.f32(point, 2);
    });
    const said = word(reply);
    return said.word === 'move' || said.word === 'line' ? { ...said, cell: cellOf(reply), point: { x, y } } : said;
  }

  /** Whether memory is sound at a place: done, or refused as damaged. */
  check(party, place) {
    u8(party, 'party');
    u8(place, 'place');
    return done(this.#reply((calls, at) => calls.rq_check_parts(this.#rows(), this.#numbers(), this.#heads(), party, place, at)));
  }

  /** The image of what is at work at a place, or of an empty place. */
  save(party, place) {
    u8(party, 'party');
    u8(place, 'place');
    const library = this._library();
    return library.image((list, at) =>
      library.calls.rq_save_parts(this.#rows(), this.#numbers(), this.#heads(), party, place, ...list, at));
  }

  /** Puts the outline of an image to work at a place, as a close does; the image of an empty place clears it. The draft stays. */
  restore(party, place, image) {
    u8(party, 'party');
    u8(place, 'place');
    const bytes = imageOf(image, 'image');
    const reply = this.#reply((calls, at, library) => {
      const list = library.list(bytes);
      const word = calls.rq_prepare_image_parts(this.#rows(), this.#numbers(), this.#heads(), party, place, ...list, at);
      calls.rq_commit_parts(this.#heads(), party, place, word);
    });
    if (reply.number !== 0 || reply.word === 0) return done(reply);
    return { word: WORDS[reply.word], anchor: cellOf(reply), edgeCount: reply.place };
  }

  /** Makes the call that stands in eleven bytes: the reply's seven numbers, or undefined where the bytes are no call. */
  call(bytes) {
    const given = bytesIn(bytes, 'bytes').subarray(0, CALL + 1);
    let made;
    const reply = this.#reply((calls, at, library) => {
      made = calls.rq_call_parts(this.#letters(), this.#rows(), this.#numbers(), this.#heads(), ...library.list(given), at);
    });
    return made ? reply : undefined;
  }

  /** The holder's memory, 10,416 bytes, the same on every little-endian machine. */
  toBytes() {
    return this._bytes(HOLDER.size);
  }

  /** A holder of its own, with the same drafts and the same outlines at work. */
  copy() {
    return new Holder(this._library())._copyFrom(this);
  }
}

/** Sixteen layers, each empty or one taken outline. */
export class Pile extends Owner {
  constructor(library) {
    super(library, PILE.size);
    library.calls.rq_pile_fresh_parts(this.#rows(), this.#state());
  }

  #rows() {
    return this._at() + PILE.rows;
  }

  #state() {
    return this._at() + PILE.state;
  }

  #reply(call) {
    const library = this._library();
    return library.reply((at) => call(library.calls, at, library));
  }

  set(layer, outline) {
    u8(layer, 'layer');
    const { start, letters } = outlineOf(outline, 'outline');
    const reply = this.#reply((calls, at, library) =>
      calls.rq_pile_set_parts(this.#rows(), this.#state(), layer, ...start, ...library.list(letters), at));
    if (reply.number !== 0) return { taken: false, refusal: refusalOf(reply) };
    return { taken: true, anchor: cellOf(reply), edgeCount: reply.place };
  }

  empty(layer) {
    u8(layer, 'layer');
    return done(this.#reply((calls, at) => calls.rq_pile_empty_parts(this.#rows(), this.#state(), layer, at)));
  }

  check() {
    const reply = this.#reply((calls, at) => calls.rq_pile_check_parts(this.#rows(), this.#state(), at));
    return reply.number !== 0 ? { passed: false, refusal: refusalOf(reply) } : { passed: true };
  }

  /** Some sections of a check: undefined while it goes on, else the answer of the whole check. */
  checkStep(sections) {
    u16(sections, 'sections');
    const reply = this.#reply((calls, at) => calls.rq_pile_check_step_parts(this.#rows(), this.#state(), sections, at));
    if (WORDS[reply.word] === 'more') return undefined;
    return reply.number !== 0 ? { passed: false, refusal: refusalOf(reply) } : { passed: true };
  }

  query(layer, cell) {
    u8(layer, 'layer');
    const [col, row] = pair(cell, 'cell');
    return word(this.#reply((calls, at) => calls.rq_pile_query_parts(this.#rows(), this.#state(), layer, col, row, at)));
  }

  /** The image of a layer. */
  save(layer) {
    u8(layer, 'layer');
    const library = this._library();
    return library.image((list, at) => library.calls.rq_pile_save_parts(this.#rows(), layer, ...list, at));
  }

  /** Sets a layer to the outline of an image, or to empty. */
  restore(layer, image) {
    u8(layer, 'layer');
    const bytes = imageOf(image, 'image');
    return done(this.#reply((calls, at, library) =>
      calls.rq_pile_restore_parts(this.#rows(), this.#state(), layer, ...library.list(bytes), at)));
  }

  /** The pile's memory, 8,164 bytes. */
  toBytes() {
    return this._bytes(PILE.size);
  }

  /** A pile of its own, with the same layers. */
  copy() {
    return new Pile(this._library())._copyFrom(this);
  }
}

/** The calls. One object has one WebAssembly memory, and all its holders and piles lie in it. */
export class Robequarry {
  #library;

  constructor(instance) {
    this.#library = new Library(instance);
  }

  get version() {
    return version;
  }

  get limits() {
    return limits;
  }

  test(outline) {
    const { start, letters } = outlineOf(outline, 'outline');
    const library = this.#library;
    let edges;
    const reply = library.reply((at) => {
      const list = library.room(4 * limits.mostEdges);
      library.calls.rq_test(...start, ...library.list(letters), list, BigInt(2 * limits.mostEdges), at);
      edges = library.memory.i16(list, 2 * limits.mostEdges);
    });
    if (reply.number !== 0) return { taken: false, refusal: refusalOf(reply) };
    const edge = (_, place) => ({ dx: edges[2 * place], dy: edges[2 * place + 1] });
    return { taken: true, anchor: cellOf(reply), edges: Array.from({ length: reply.place }, edge) };
  }

  looseQuery(question) {
    const { anchor, edges } = hullOf(question, 'question');
    const cell = pair(question.cell, 'question.cell');
    const library = this.#library;
    const reply = library.reply((at) => library.calls.rq_loose_query(...anchor, ...library.list(edges), ...cell, at));
    return reply.number !== 0 ? refused(reply) : { inside: WORDS[reply.word] === 'inside' };
  }

  /** Where a reading lies to an anchor and edges. The numbers are rounded to the nearest floats of 32 bits, and these are located. */
  looseReading(question) {
    const { anchor, edges } = hullOf(question, 'question');
    const angle = real(question.angle, 'question.angle');
    const load = real(question.load, 'question.load');
    const library = this.#library;
    return word(library.reply((at) => library.calls.rq_loose_reading(...anchor, ...library.list(edges), angle, load, at)));
  }

  border(hull) {
    const { anchor, edges } = hullOf(hull, 'hull');
    const [col, row] = anchor;
    return this.#written({ col, row }, (library, list, at) =>
      library.calls.rq_border(col, row, ...library.list(edges), ...list, at));
  }

  complete(outline) {
    const { start, letters } = outlineOf(outline, 'outline');
    return this.#written(null, (library, list, at) =>
      library.calls.rq_complete(...start, ...library.list(letters), ...list, at));
  }

  // A call that writes letters, with the corner at which they start: the given one, or that of the reply.
  #written(start, call) {
    const library = this.#library;
    let letters;
    const reply = library.reply((at) => {
      const list = library.room(limits.letters);
      call(library, [list, BigInt(limits.letters)], at);
      letters = library.memory.u8(list, limits.letters);
    });
    if (reply.number !== 0) return refused(reply);
    return { start: start ?? cellOf(reply), letters: letters.slice(0, reply.place) };
  }

  compare(first, second) {
    const one = hullOf(first, 'first');
    const two = hullOf(second, 'second');
    const library = this.#library;
    const reply = library.reply((at) =>
      library.calls.rq_compare(...one.anchor, ...library.list(one.edges), ...two.anchor, ...library.list(two.edges), at));
    if (reply.number !== 0) return { ...refused(reply), list: reply.place };
    return { word: WORDS[reply.word], inner: reply.piece };
  }

  witness(outline) {
    const { start, letters } = outlineOf(outline, 'outline');
    const library = this.#library;
    let cells;
    const reply = library.reply((at) => {
      const list = library.room(2 * WITNESS);
      library.calls.rq_witness(...start, ...library.list(letters), list, BigInt(WITNESS), at);
      cells = library.memory.u16(list, WITNESS);
    });
    if (reply.number !== 0) return refused(reply);
    if (WORDS[reply.word] === 'none') return { none: true };
    return { missing: cellOf(reply), cells: [0, 2, 4].map((place) => ({ col: cells[place], row: cells[place + 1] })) };
  }

  /** The CRC-32C of bytes, which an image ends with, lowest byte first. */
  checksum(bytes) {
    const list = bytesIn(bytes, 'bytes');
    const library = this.#library;
    return library.during([list.length], (at) => {
      library.memory.copyIn(at, list);
      return library.calls.rq_checksum(at, BigInt(list.length)) >>> 0;
    });
  }

  /** A frame round some bytes, for a line. */
  frame(body) {
    const given = bytesIn(body, 'body').subarray(0, limits.frameBody + 1);
    return this.#bytes(given.length + limits.frameBytes, 'frame', (library, list, at) =>
      library.calls.rq_frame(...library.list(given), ...list, at));
  }

  /** The body of a frame; bytes that are not exactly a frame are refused. */
  unframe(frame) {
    const given = bytesIn(frame, 'frame').subarray(0, MOST.frame);
    return this.#bytes(limits.frameBody, 'body', (library, list, at) =>
      library.calls.rq_unframe(...library.list(given), ...list, at));
  }

  // A call that writes so many bytes at most, of which the reply has the count.
  #bytes(most, name, call) {
    const library = this.#library;
    let written;
    const reply = library.reply((at) => {
      const list = library.room(most);
      call(library, [list, BigInt(most)], at);
      written = library.memory.u8(list, most);
    });
    return reply.number !== 0 ? refused(reply) : { [name]: written.slice(0, reply.place) };
  }

  /** The replies, seven numbers each, to the calls that stand in a script, made on a fresh holder. It ends at bytes that are no call. */
  replay(script) {
    const given = bytesIn(script, 'script');
    const most = Math.floor(given.length / CALL);
    const library = this.#library;
    return library.during([given.length, most * REPLY], (from, to) => {
      library.memory.copyIn(from, given);
      library.memory.clear(to, most * REPLY);
      const count = Number(library.calls.rq_replay_numbers(from, BigInt(given.length), to, BigInt(most * (REPLY / 2))));
      return Array.from({ length: count }, (_, place) => library.memory.reply(to + place * REPLY));
    });
  }

  /** A holder with the memory that `toBytes` gave. Every content is a holder; `check` says whether a place is sound. */
  holderFrom(bytes) {
    return this.holder()._fill(memoryOf(bytes, HOLDER.size));
  }

  /** A pile with the memory that `toBytes` gave. */
  pileFrom(bytes) {
    return this.pile()._fill(memoryOf(bytes, PILE.size));
  }

  holder() {
    return new Holder(this.#library);
  }

  pile() {
    return new Pile(this.#library);
  }
}

// Loading.

/** From the module's bytes, or a module that is compiled already, at once. */
export function loadSync(source) {
  const module = source instanceof WebAssembly.Module ? source : new WebAssembly.Module(bytesOf(source));
  return new Robequarry(instanceOf(module));
}

/** From bytes, a module, a response, or an address. node.js also takes the path of a file. */
export async function load(source) {
  const found = await source;
  if (found instanceof WebAssembly.Module) return new Robequarry(instanceOf(found));
  return new Robequarry(instanceOf(await WebAssembly.compile(bytesOf(await read(found)))));
}

// The library imports nothing. A module that does is another one.
function instanceOf(module) {
  const [first] = WebAssembly.Module.imports(module);
  if (first) throw new TypeError(`this WebAssembly module is not Robequarry ${version}: it imports ${first.module}.${first.name}`);
  return new WebAssembly.Instance(module);
}

function bytesOf(source) {
  if (source instanceof ArrayBuffer || ArrayBuffer.isView(source)) return source;
  throw new TypeError(`the module must be bytes, a WebAssembly.Module, a Response or an address, not ${shown(source)}`);
}

async function read(source) {
  if (typeof Response !== 'undefined' && source instanceof Response) return body(source);
  if (typeof source !== 'string' && !(source instanceof URL)) return source;
  return body(await fetch(source));
}

async function body(response) {
  if (!response.ok) throw new Error(`the module cannot be fetched from ${response.url}: ${response.status}`);
  return response.arrayBuffer();
}
