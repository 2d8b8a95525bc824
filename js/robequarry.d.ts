// Types of robequarry.js. include/robequarry.h says what each call does, and which refusals it has.

/** Column and row, counted from the lower left: of a cell 0 to 254, of a corner 0 to 255. */
export interface Place {
  col: number;
  row: number;
}

/** An edge from cell centre to cell centre: so many columns and rows. */
export interface Edge {
  dx: number;
  dy: number;
}

/** 0 right, 1 up, 2 left, 3 down: a string of digits, or a list of bytes. */
export type Letters = string | Uint8Array | readonly number[];

/** A start corner, and the letters once round a block of cells, either way. */
export interface Outline {
  start: Place;
  letters: Letters;
}

/** An anchor, and edges clockwise from it. An Int16Array has columns and rows of each edge in turn. */
export interface Hull {
  anchor: Place;
  edges: readonly Edge[] | Int16Array;
}

/** Of these the reply has no field. */
export type PlainRefusal =
  | { number: 1; name: 'length' }
  | { number: 2; name: 'start' }
  | { number: 5; name: 'notClosed' }
  | { number: 10; name: 'edgeList' }
  | { number: 11; name: 'cell' }
  | { number: 12; name: 'nothingAtWork' }
  | { number: 13; name: 'noDraft' }
  | { number: 14; name: 'draftOpen' }
  | { number: 15; name: 'draftFull' }
  | { number: 16; name: 'directions' }
  | { number: 17; name: 'noOutline' }
  | { number: 18; name: 'letterBuffer' }
  | { number: 19; name: 'party' }
  | { number: 20; name: 'place' }
  | { number: 22; name: 'layer' }
  | { number: 26; name: 'image' }
  | { number: 27; name: 'damaged' }
  | { number: 28; name: 'frame' };

/** A refusal, told apart by its name or its number. It has only the fields that its number names. There is no 7; 23 to 25 are of files. */
export type Refusal =
  | PlainRefusal
  /** `place` is of a letter, counted from 0. */
  | { number: 3; name: 'letter'; place: number }
  | { number: 4; name: 'offChart'; place: number }
  | { number: 6; name: 'touches'; place: number }
  /** `piece` is of the border, 1 to 4. */
  | { number: 8; name: 'backStep'; piece: number; place: number }
  /** `length` counts letters of the factor, and `cell` is the lowest missing one. */
  | { number: 9; name: 'dent'; piece: number; place: number; length: number; cell: Place }
  /** `piece` is 0 at a column and 1 at a row, and `place` is which. */
  | { number: 21; name: 'section'; piece: 0 | 1; place: number };

export type RefusalName = Refusal['name'];

export interface Refused {
  refusal: Refusal;
}

/** A call without an answer was made. */
export interface Done {
  done: true;
}

export interface NotTaken extends Refused {
  taken: false;
}

export interface Taken {
  taken: true;
  anchor: Place;
  edges: Edge[];
}

/** Where the edges themselves are not asked for. */
export interface TakenCount {
  taken: true;
  anchor: Place;
  edgeCount: number;
}

/** Letters clockwise from a corner. */
export interface Written {
  start: Place;
  letters: Uint8Array;
}

export interface Compared {
  word: 'equal' | 'firstWithinSecond' | 'secondWithinFirst' | 'noCommonCell' | 'crossing';
  /** Which hull is the inner one: 1 or 2, or 0 for neither. */
  inner: 0 | 1 | 2;
}

export interface Witness {
  /** The lowest missing cell, the leftmost of its row. */
  missing: Place;
  /** Cells of the block; the missing one lies in their triangle. */
  cells: [Place, Place, Place];
}

export interface Position {
  word: 'inside' | 'outside';
}

export interface Located {
  word: 'inside' | 'outside' | 'undecided';
}

export interface Draft {
  start: Place;
  letterCount: number;
}

export interface Closed {
  word: 'taken' | 'same';
  anchor: Place;
  edgeCount: number;
}

/** The seven numbers of a reply, as include/robequarry.h has them. */
export interface Reply {
  number: number;
  word: number;
  place: number;
  piece: number;
  length: number;
  col: number;
  row: number;
}

/** 622 bytes. */
export interface Saved {
  image: Uint8Array;
}

export type Columns = { word: 'columns'; first: number; last: number } | { word: 'none' };

export type Piece =
  | { word: 'move' | 'line'; cell: Place; point: { x: number; y: number } }
  | { word: 'close' }
  | { word: 'none' };

/** Angle and load in chart units. They are rounded to the nearest floats of 32 bits, and these are located. */
export interface Reading {
  angle: number;
  load: number;
}

/** Its memory is given back by `free`, or some time after nobody refers to it. */
export class Holder {
  private constructor();
  begin(party: number, start: Place): Done | Refused;
  add(party: number, letter: number): Done | Refused;
  draft(party: number): Draft | Refused;
  drop(party: number): Done | Refused;
  clear(party: number, place: number): Done | Refused;
  close(party: number, place: number): Closed | Refused;
  query(party: number, place: number, cell: Place): Position | Refused;
  row(party: number, place: number, row: number): Columns | Refused;
  reading(party: number, place: number, reading: Reading): Located | Refused;
  piece(party: number, place: number, position: number): Piece | Refused;
  check(party: number, place: number): Done | Refused;
  save(party: number, place: number): Saved | Refused;
  /** Done: the image is that of an empty place. */
  restore(party: number, place: number, image: Uint8Array | ArrayBuffer): Closed | Done | Refused;
  /** Makes the call that stands in eleven bytes; undefined where they are no call. */
  call(bytes: Uint8Array | ArrayBuffer): Reply | undefined;
  /** Its memory, 10,416 bytes. */
  toBytes(): Uint8Array;
  copy(): Holder;
  free(): void;
}

/** Its memory is given back by `free`, or some time after nobody refers to it. */
export class Pile {
  private constructor();
  set(layer: number, outline: Outline): TakenCount | NotTaken;
  empty(layer: number): Done | Refused;
  check(): { passed: true } | ({ passed: false } & Refused);
  checkStep(sections: number): { passed: true } | ({ passed: false } & Refused) | undefined;
  query(layer: number, cell: Place): Position | Refused;
  save(layer: number): Saved | Refused;
  restore(layer: number, image: Uint8Array | ArrayBuffer): Done | Refused;
  /** Its memory, 8,164 bytes. */
  toBytes(): Uint8Array;
  copy(): Pile;
  free(): void;
}

export interface Limits {
  readonly side: number;
  readonly letters: number;
  readonly mostEdges: number;
  readonly listNumbers: number;
  readonly parties: number;
  readonly places: number;
  readonly layers: number;
  readonly imageBytes: number;
  readonly frameBody: number;
  readonly frameBytes: number;
}

/** Every method throws a TypeError for an argument that is none; refusals are values. */
export class Robequarry {
  private constructor();
  readonly version: string;
  readonly limits: Limits;
  test(outline: Outline): Taken | NotTaken;
  looseQuery(question: Hull & { cell: Place }): { inside: boolean } | Refused;
  looseReading(question: Hull & Reading): Located | Refused;
  border(hull: Hull): Written | Refused;
  /** A refusal names the list, 1 or 2. */
  compare(first: Hull, second: Hull): Compared | (Refused & { list: 1 | 2 });
  witness(outline: Outline): Witness | { none: true } | Refused;
  complete(outline: Outline): Written | Refused;
  /** The CRC-32C of bytes. */
  checksum(bytes: Uint8Array | ArrayBuffer): number;
  /** A frame round at most 1,024 bytes, for a line. */
  frame(body: Uint8Array | ArrayBuffer): { frame: Uint8Array } | Refused;
  /** The body of a frame; bytes that are not exactly a frame are refused. */
  unframe(frame: Uint8Array | ArrayBuffer): { body: Uint8Array } | Refused;
  /** The replies to the calls in a script, made on a fresh holder. */
  replay(script: Uint8Array | ArrayBuffer): Reply[];
  holder(): Holder;
  /** From the bytes of `toBytes`. Every content is a holder; `check` says whether a place is sound. */
  holderFrom(bytes: Uint8Array | ArrayBuffer): Holder;
  pile(): Pile;
  pileFrom(bytes: Uint8Array | ArrayBuffer): Pile;
}

/** The sentence of a refusal, or of a reply's word, by its number. */
export function refusalText(number: number): string;
export function wordText(number: number): string;

export const version: string;
export const limits: Limits;

export type Source = BufferSource | WebAssembly.Module | Response | URL | string;

/**
 * From bytes, a compiled module, a response, or an address: a URL; in Node also the path of a file, and without any the module that is
 * part of the package.
 */
export function load(source?: Source | PromiseLike<Source>): Promise<Robequarry>;

/** From bytes or a compiled module, at once. On the main thread of an older browser use `load`. */
export function loadSync(source: BufferSource | WebAssembly.Module): Robequarry;
