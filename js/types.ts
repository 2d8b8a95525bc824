// The types of robequarry.d.ts, used once each: `tsc --noEmit --strict` takes this file only if they are as it says.
import { limits, load, loadSync, version } from './robequarry.js';
import type { Edge, Hull, Outline, Place, Refusal, Robequarry } from './robequarry.js';

function edgesOf(rq: Robequarry, outline: Outline): Edge[] | Refusal {
  const verdict = rq.test(outline);
  return verdict.taken ? verdict.edges : verdict.refusal;
}

function wordOf(rq: Robequarry, first: Hull, second: Hull): string {
  const compared = rq.compare(first, second);
  return 'refusal' in compared ? `list ${compared.list}: ${compared.refusal.name}` : `${compared.word} ${compared.inner}`;
}

function help(rq: Robequarry, outline: Outline): Place | undefined {
  const witness = rq.witness(outline);
  const completed = rq.complete(outline);
  if ('letters' in completed) rq.pile().set(0, completed);
  return 'missing' in witness ? witness.cells[2] : undefined;
}

function onHolder(rq: Robequarry): number {
  const holder = rq.holder();
  const begun = holder.begin(0, { col: 0, row: 0 });
  if ('refusal' in begun) return begun.refusal.number;
  const columns = holder.copy().row(0, 0, 3);
  if ('refusal' in columns || columns.word === 'none') return 0;
  const piece = holder.piece(0, 0, 1);
  return 'point' in piece ? piece.point.x : columns.last - columns.first;
}

function moved(rq: Robequarry): string {
  const holder = rq.holder();
  if ('refusal' in holder.check(0, 0)) return 'damaged';
  const saved = holder.save(0, 0);
  if ('refusal' in saved) return saved.refusal.name;
  const restored = holder.restore(1, 3, saved.image);
  if ('refusal' in restored) return restored.refusal.name;
  const layer = rq.pile().save(0);
  return 'done' in restored ? `empty ${'image' in layer ? layer.image.length : 0}` : `${restored.word} ${rq.checksum(saved.image)}`;
}

export async function all(bytes: Uint8Array): Promise<unknown[]> {
  const rq = await load(new URL('https://example.org/robequarry.wasm'));
  const plus: Outline = { start: { col: 0, row: 1 }, letters: '101030323212' };
  const hull: Hull = { anchor: { col: 0, row: 0 }, edges: new Int16Array(0) };
  const loose = loadSync(bytes).looseQuery({ ...hull, cell: { col: 0, row: 0 } });
  const inside: boolean = 'refusal' in loose ? false : loose.inside;
  return [edgesOf(rq, plus), wordOf(rq, hull, hull), help(rq, plus), onHolder(rq), moved(rq), inside, limits.letters, version];
}

// @ts-expect-error: a cell has a column and a row
export const bad: Place = { col: 1 };
