// Tests of robequarry.js in Node, over target/wasm32/robequarry.wasm (`./build wasm32`): node --test js/
import assert from 'node:assert/strict';
import { readFileSync } from 'node:fs';
import { test } from 'node:test';
import { pathToFileURL } from 'node:url';
import { REFUSALS } from './texts.js';
import { limits, load, loadSync, refusalText, version, wordText } from './node.js';

const path = new URL('../target/wasm32/robequarry.wasm', import.meta.url).pathname;
const bytes = readFileSync(path);
const rq = loadSync(bytes);
const header = readFileSync(new URL('../include/robequarry.h', import.meta.url), 'utf8');
const specimens = readFileSync(new URL('../host/program/specimens.txt', import.meta.url), 'utf8');

const outline = (col, row, letters) => ({ start: { col, row }, letters });
const many = outline(0, 81, /^0 81 ([0-3]+)/m.exec(specimens)[1]);
const plus = outline(0, 1, '101030323212');
const dent = outline(0, 0, '111033003222');
const cell = (col, row) => ({ col, row });
const edges = (...numbers) => numbers.flatMap((n, i) => (i % 2 === 0 ? [{ dx: n, dy: numbers[i + 1] }] : []));
const refusal = (number, name, fields = {}) => ({ number, name, ...fields });

// A holder with an outline at work.
function atWork(drawn, party = 0, place = 0) {
  const holder = rq.holder();
  assert.deepEqual(holder.begin(party, drawn.start), { done: true });
  for (const letter of drawn.letters) assert.deepEqual(holder.add(party, Number(letter)), { done: true });
  assert.equal(holder.close(party, place).word, 'taken');
  return holder;
}

test('versions and limits are the header’s', () => {
  assert.equal(version, /RQ_VERSION "(.*)"/.exec(header)[1]);
  assert.equal(rq.version, version);
  const number = version.split('.').reduce((sum, part) => 256 * sum + Number(part), 0);
  assert.equal(Number(/RQ_VERSION_NUMBER (0x\w+)/.exec(header)[1]), number);
  const limit = (name) => Number(new RegExp(`${name} = (\\d+)`).exec(header)[1]);
  const names = ['SIDE', 'LETTERS', 'MOST_EDGES', 'LIST_NUMBERS', 'PARTIES', 'PLACES', 'LAYERS', 'IMAGE_BYTES', 'FRAME_BODY', 'FRAME_BYTES'];
  const expected = names.map((name) => limit(`RQ_${name}`));
  assert.deepEqual(Object.values(limits), expected);
  assert.equal(rq.limits, limits);
});

test('every refusal and word of the header has its name and its sentence', () => {
  const numbers = [...header.matchAll(/RQ_REFUSED_([A-Z_]+) = (\d+)/g)];
  for (const [, upper, number] of numbers) {
    const name = upper.toLowerCase().replace(/_(.)/g, (_, letter) => letter.toUpperCase());
    assert.equal(REFUSALS[number][0], name);
    assert.match(refusalText(number), /^[A-Z].*\.$/);
  }
  assert.equal(numbers.length, 24);
  assert.equal(wordText(1), 'The cell or the reading is inside.');
  assert.equal(refusalText(7), 'There is no such refusal.');
});

test('the specimens', () => {
  const taken = (col, row, ...numbers) => ({ taken: true, anchor: cell(col, row), edges: edges(...numbers) });
  const refused = (...words) => ({ taken: false, refusal: refusal(...words) });
  const square = [1, 1, 1, -1, -1, -1, -1, 1];
  const table = [
    [outline(0, 0, '1032'), taken(0, 0)],
    [outline(0, 0, '10003222'), taken(0, 0, 2, 0, -2, 0)],
    [plus, taken(0, 1, ...square)],
    [outline(1, 1, '210103032321'), taken(0, 1, ...square)],
    [outline(0, 0, '11030322'), taken(0, 0, 0, 1, 1, -1, -1, 0)],
    [dent, refused(9, 'dent', { piece: 2, place: 4, length: 4, cell: cell(1, 1) })],
    [outline(0, 0, '110301033222'), refused(8, 'backStep', { piece: 2, place: 5 })],
    [outline(0, 0, '1023'), refused(6, 'touches', { place: 2 })],
    [outline(0, 0, '0123'), taken(0, 0)],
    [outline(0, 0, '103'), refused(1, 'length')],
    [outline(255, 0, '1032'), refused(4, 'offChart', { place: 1 })],
    [outline(0, 1, '1033'), refused(5, 'notClosed')],
    [outline(256, 0, '7777'), refused(2, 'start')],
    [outline(0, 0, '11070322'), refused(3, 'letter', { place: 3 })],
    [outline(0, 0, new Uint8Array(613)), refused(1, 'length')],
    [outline(0, 0, []), refused(1, 'length')],
  ];
  for (const [drawn, expected] of table) assert.deepEqual(rq.test(drawn), expected);
  for (const letters of [[...plus.letters].map(Number), Uint8Array.from(plus.letters), Int32Array.from(plus.letters)]) {
    assert.deepEqual(rq.test({ ...plus, letters }), rq.test(plus));
  }
  const most = rq.test(many);
  assert.equal(most.edges.length, 100);
  assert.equal(Buffer.from(rq.border(most).letters).map((letter) => letter + 48).toString(), many.letters);
});

test('loose queries, borders and comparisons', () => {
  const hull = rq.test(plus);
  const asked = (col, row) => rq.looseQuery({ ...hull, cell: cell(col, row) });
  assert.deepEqual(asked(1, 2), { inside: true });
  assert.deepEqual(asked(0, 0), { inside: false });
  assert.deepEqual(asked(255, 0), { refusal: refusal(11, 'cell') });
  assert.deepEqual(rq.looseQuery({ anchor: cell(3, 4), edges: [], cell: cell(3, 4) }), { inside: true });
  assert.deepEqual(rq.looseQuery({ anchor: cell(0, 0), edges: new Int16Array(3), cell: cell(0, 0) }), { refusal: refusal(10, 'edgeList') });
  assert.deepEqual(rq.looseQuery({ anchor: cell(0, 0), edges: edges(0, 0), cell: cell(0, 0) }), { refusal: refusal(16, 'directions') });
  assert.deepEqual(rq.border(hull), { start: cell(0, 1), letters: Uint8Array.from(plus.letters) });
  assert.deepEqual(rq.border({ anchor: cell(0, 0), edges: edges(1, 2, -1, -2) }), { refusal: refusal(17, 'noOutline') });
  const one = { anchor: cell(1, 1), edges: [] };
  const far = { anchor: cell(100, 100), edges: [] };
  const beside = { ...hull, anchor: cell(1, 1) };
  assert.deepEqual(rq.compare(hull, hull), { word: 'equal', inner: 1 });
  assert.deepEqual(rq.compare(one, hull), { word: 'firstWithinSecond', inner: 1 });
  assert.deepEqual(rq.compare(hull, one), { word: 'secondWithinFirst', inner: 2 });
  assert.deepEqual(rq.compare(hull, far), { word: 'noCommonCell', inner: 0 });
  assert.deepEqual(rq.compare(hull, beside), { word: 'crossing', inner: 0 });
  assert.deepEqual(rq.compare(hull, { ...one, edges: edges(0, 0) }), { refusal: refusal(16, 'directions'), list: 2 });
});

test('witness and completion', () => {
  const { missing, cells } = rq.witness(dent);
  assert.deepEqual(missing, cell(1, 1));
  assert.equal(cells.length, 3);
  assert.deepEqual(rq.witness(plus), { none: true });
  assert.deepEqual(rq.witness(outline(0, 0, '10')), { refusal: refusal(1, 'length') });
  const completed = rq.complete(dent);
  assert.deepEqual(completed, { start: cell(0, 0), letters: Uint8Array.from('111030303222') });
  assert.equal(rq.test(completed).taken, true);
  assert.deepEqual(rq.complete(outline(0, 0, '1023')), { refusal: refusal(6, 'touches', { place: 2 }) });
});

test('a holder', () => {
  const holder = atWork(plus, 1, 3);
  assert.deepEqual(holder.query(1, 3, cell(1, 2)), { word: 'inside' });
  assert.deepEqual(holder.query(1, 3, cell(0, 0)), { word: 'outside' });
  assert.deepEqual(holder.query(0, 3, cell(0, 0)), { refusal: refusal(12, 'nothingAtWork') });
  assert.deepEqual(holder.query(2, 3, cell(0, 0)), { refusal: refusal(19, 'party') });
  assert.deepEqual(holder.query(1, 4, cell(0, 0)), { refusal: refusal(20, 'place') });
  assert.deepEqual(holder.row(1, 3, 1), { word: 'columns', first: 0, last: 2 });
  assert.deepEqual(holder.row(1, 3, 9), { word: 'none' });
  assert.deepEqual(holder.piece(1, 3, 0), { word: 'move', cell: cell(0, 1), point: { x: 0.5, y: 1.5 } });
  assert.deepEqual(holder.piece(1, 3, 1), { word: 'line', cell: cell(1, 2), point: { x: 1.5, y: 2.5 } });
  assert.deepEqual(holder.piece(1, 3, 4), { word: 'close' });
  assert.deepEqual(holder.piece(1, 3, 5), { word: 'none' });
  assert.deepEqual(holder.add(1, 0), { refusal: refusal(13, 'noDraft') });
  assert.deepEqual(holder.drop(1), { refusal: refusal(13, 'noDraft') });
  assert.deepEqual(holder.begin(1, cell(0, 0)), { done: true });
  assert.deepEqual(holder.begin(1, cell(0, 0)), { refusal: refusal(14, 'draftOpen') });
  assert.deepEqual(holder.add(1, 4), { refusal: refusal(3, 'letter', { place: 0 }) });
  assert.deepEqual(holder.close(1, 3), { refusal: refusal(1, 'length') });
  const copy = holder.copy();
  assert.deepEqual(holder.clear(1, 3), { done: true });
  assert.deepEqual(holder.query(1, 3, cell(1, 2)), { refusal: refusal(12, 'nothingAtWork') });
  assert.deepEqual(copy.query(1, 3, cell(1, 2)), { word: 'inside' });
  copy.free();
  copy.free();
  assert.throws(() => copy.query(1, 3, cell(1, 2)), /freed/);
});

test('images of a place and of a layer', () => {
  const holder = atWork(plus, 1, 3);
  assert.deepEqual(holder.check(1, 3), { done: true });
  assert.deepEqual(holder.check(2, 3), { refusal: refusal(19, 'party') });
  const { image } = holder.save(1, 3);
  assert.equal(image.length, limits.imageBytes);
  assert.deepEqual([...image.slice(0, 18)], [0x4b, 0x4f, 0, 1, 12, 0, ...Uint8Array.from(plus.letters)]);
  assert.deepEqual([...image.slice(616)], [0, 0, 0xfa, 0xe9, 0x68, 0xa0]);
  assert.equal(rq.checksum(image.slice(0, 618)), 0xa068e9fa);
  assert.equal(rq.checksum(new TextEncoder().encode('123456789')), 0xe3069283);

  const other = rq.holder();
  other.begin(0, cell(7, 8));
  assert.deepEqual(other.restore(0, 2, image), { word: 'taken', anchor: cell(0, 1), edgeCount: 4 });
  assert.deepEqual(other.restore(0, 2, image.buffer), { word: 'same', anchor: cell(0, 1), edgeCount: 4 });
  assert.deepEqual(other.draft(0), { start: cell(7, 8), letterCount: 0 });
  assert.deepEqual(other.query(0, 2, cell(1, 2)), { word: 'inside' });
  for (let bit = 0; bit < 8 * image.length; bit += 7) {
    const damaged = image.slice();
    damaged[bit >> 3] ^= 1 << (bit & 7);
    assert.deepEqual(other.restore(0, 2, damaged), { refusal: refusal(26, 'image') });
  }
  assert.deepEqual(other.restore(0, 2, image.slice(1)), { refusal: refusal(26, 'image') });
  assert.deepEqual(other.save(0, 2), { image });
  const empty = other.save(0, 3).image;
  assert.deepEqual(other.restore(0, 2, empty), { done: true });
  assert.deepEqual(other.query(0, 2, cell(1, 2)), { refusal: refusal(12, 'nothingAtWork') });

  const pile = rq.pile();
  assert.deepEqual(pile.restore(5, image), { done: true });
  assert.deepEqual(pile.save(5), { image });
  assert.deepEqual(pile.save(6), { image: empty });
  assert.deepEqual(pile.save(16), { refusal: refusal(22, 'layer') });
  assert.equal(pile.check().passed, true);
  assert.deepEqual(pile.query(5, cell(1, 2)), { word: 'inside' });
  assert.deepEqual(pile.restore(5, image.slice(1)), { refusal: refusal(26, 'image') });
  assert.deepEqual(pile.restore(5, empty), { done: true });
  assert.deepEqual(pile.save(5), { image: empty });
});

test('the same outline closed again is the same, and readings are located', () => {
  const holder = atWork(plus);
  holder.begin(0, plus.start);
  for (const letter of plus.letters) holder.add(0, Number(letter));
  assert.deepEqual(holder.close(0, 0), { word: 'same', anchor: cell(0, 1), edgeCount: 4 });
  const reading = (angle, load) => holder.reading(0, 0, { angle, load });
  assert.deepEqual(reading(1, 1), { word: 'inside' });
  assert.deepEqual(reading(0, 1), { word: 'undecided' });
  assert.deepEqual(reading(200, 1), { word: 'outside' });
  for (const none of [NaN, Infinity, -1, 254.5]) assert.deepEqual(reading(none, 1), { refusal: refusal(11, 'cell') });
});

test('of one cell the least number beside its centre is outside', () => {
  const holder = atWork(outline(0, 0, '1032'));
  assert.deepEqual(holder.reading(0, 0, { angle: 0, load: -0 }), { word: 'inside' });
  assert.deepEqual(holder.reading(0, 0, { angle: 2 ** -149, load: 0 }), { word: 'outside' });
});

test('a pile', () => {
  const pile = rq.pile();
  const one = (col, row) => outline(col, row, '1032');
  assert.deepEqual(pile.set(0, plus), { taken: true, anchor: cell(0, 1), edgeCount: 4 });
  assert.deepEqual(pile.query(0, cell(1, 1)), { refusal: refusal(12, 'nothingAtWork') });
  assert.deepEqual(pile.check(), { passed: true });
  assert.deepEqual(pile.query(0, cell(1, 1)), { word: 'inside' });
  assert.deepEqual(pile.copy().query(0, cell(0, 0)), { word: 'outside' });
  assert.deepEqual(pile.set(1, dent).refusal.name, 'dent');
  assert.deepEqual(pile.set(16, plus), { taken: false, refusal: refusal(22, 'layer') });
  assert.deepEqual(pile.empty(16), { refusal: refusal(22, 'layer') });
  assert.deepEqual(pile.empty(0), { done: true });
  [one(9, 1), one(9, 2), one(9, 0)].forEach((drawn, layer) => assert.equal(pile.set(layer, drawn).taken, true));
  assert.deepEqual(pile.check(), { passed: false, refusal: refusal(21, 'section', { piece: 0, place: 9 }) });
});

test('an argument that is none throws a TypeError that names it', () => {
  const holder = rq.holder();
  const pile = rq.pile();
  const bad = [
    [() => rq.test(), 'outline must be an object, not undefined'],
    [() => rq.test({ letters: '' }), 'outline.start must be an object'],
    [() => rq.test(outline(70000, 0, '')), 'outline.start.col must be a whole number from 0 to 65535, not 70000'],
    [() => rq.test(outline(0, -1, '')), 'outline.start.row'],
    [() => rq.test(outline(0.5, 0, '')), 'outline.start.col'],
    [() => rq.test(outline('0', 0, '')), 'outline.start.col must be a whole number from 0 to 65535, not "0"'],
    [() => rq.test(outline(0, 0, '10x2')), 'outline.letters must be digits, and "x" at place 2 is none'],
    [() => rq.test(outline(0, 0, [0, 300])), 'outline.letters[1] must be a whole number from 0 to 255, not 300'],
    [() => rq.test(outline(0, 0, [0, , 1])), 'outline.letters[1]'],
    [() => rq.test(outline(0, 0, 1032)), 'outline.letters must be a string of digits or a list of numbers, not 1032'],
    [() => rq.border({ anchor: cell(0, 0), edges: [1, 2] }), 'hull.edges[0] must be an object'],
    [() => rq.border({ anchor: cell(0, 0), edges: [, { dx: 1, dy: 1 }] }), 'hull.edges[0] must be an object'],
    [() => rq.border({ anchor: cell(0, 0), edges: edges(1, 40000) }), 'hull.edges[0].dy must be a whole number from -32768 to 32767'],
    [() => rq.compare({ anchor: cell(0, 0), edges: [] }, null), 'second must be an object, not null'],
    [() => rq.looseQuery({ anchor: cell(0, 0), edges: [] }), 'question.cell must be an object'],
    [() => holder.add(0, 256), 'letter must be a whole number from 0 to 255'],
    [() => holder.begin(0n, cell(0, 0)), 'party must be a whole number'],
    [() => holder.query(0, 0, { col: 1 }), 'cell.row'],
    [() => holder.row(0, 0, 65536), 'row must be'],
    [() => holder.reading(0, 0, { angle: '1', load: 1 }), 'reading.angle must be a number, not "1"'],
    [() => holder.piece(0, 0), 'position must be'],
    [() => pile.set('0', plus), 'layer must be'],
    [() => holder.restore(0, 0, 'KO'), 'image must be a Uint8Array or an ArrayBuffer, not "KO"'],
    [() => pile.restore(0, [1, 2]), 'image must be a Uint8Array or an ArrayBuffer, not an object'],
    [() => loadSync('bytes'), 'the module must be bytes'],
  ];
  for (const [call, message] of bad) {
    assert.throws(call, (error) => error instanceof TypeError && error.message.startsWith(message), message);
  }
});

test('memory is given back, grows, and stays whole', () => {
  const fresh = loadSync(bytes);
  const kept = fresh.holder();
  kept.begin(0, cell(7, 7));
  for (let i = 0; i < 30000; i++) fresh.holder().free();
  const many = Array.from({ length: 200 }, () => fresh.pile());
  assert.equal(fresh.test(outline(0, 0, new Uint8Array(3_000_000))).refusal.name, 'length');
  assert.deepEqual(kept.begin(0, cell(7, 7)), { refusal: refusal(14, 'draftOpen') });
  assert.equal(many.every((pile) => pile.check().passed), true);
});

test('every way to load', async () => {
  const response = () => new Response(bytes, { headers: { 'content-type': 'application/wasm' } });
  const inlined = `data:application/wasm;base64,${bytes.toString('base64')}`;
  const arrayBuffer = bytes.buffer.slice(bytes.byteOffset, bytes.byteOffset + bytes.length);
  const sources = [bytes, arrayBuffer, new Uint8Array(bytes), new WebAssembly.Module(bytes), path, pathToFileURL(path), String(pathToFileURL(path)),
    response(), Promise.resolve(response()), inlined];
  for (const source of sources) assert.equal((await load(source)).test(plus).taken, true);
  assert.equal(loadSync(new WebAssembly.Module(bytes)).test(plus).taken, true);
  await assert.rejects(load(7), TypeError);
  await assert.rejects(load(new Response('', { status: 404 })), /cannot be fetched/);
});

test('the module imports nothing', () => {
  assert.deepEqual(WebAssembly.Module.imports(new WebAssembly.Module(bytes)), []);
});

test('a list of any length gets its refusal, and the instance stays whole', () => {
  const own = loadSync(bytes);
  const long = new Uint8Array(300_000_000);
  assert.equal(own.test({ start: cell(0, 0), letters: long }).refusal.name, 'length');
  assert.equal(own.looseQuery({ anchor: cell(0, 0), edges: new Int16Array(100_000_001), cell: cell(0, 0) }).refusal.name, 'edgeList');
  assert.equal(own.holder().restore(0, 0, long).refusal.name, 'image');
  assert.equal(own.unframe(long).refusal.name, 'frame');
  assert.equal(own.frame(long).refusal.name, 'frame');
  assert.equal(own.pile().set(0, { start: cell(0, 0), letters: '0'.repeat(1_000_000) }).refusal.name, 'length');
  assert.equal(own.holder().call(long), undefined);
  // What there is no memory for is an error, and the next call is as before.
  assert.throws(() => own.checksum({ length: 2 ** 33 }), TypeError);
  assert.deepEqual(own.test(plus), rq.test(plus));
  assert.equal(own.checksum(new TextEncoder().encode('123456789')), 0xe3069283);
});

test('blocks that are freed cost a query nothing', () => {
  const own = loadSync(bytes);
  const many = Array.from({ length: 1000 }, () => own.holder());
  const kept = own.holder();
  for (const one of many) one.free();
  assert.equal(kept.query(0, 0, cell(0, 0)).refusal.name, 'nothingAtWork');
  const again = own.holder();
  assert.deepEqual(again.toBytes(), kept.toBytes());
});

test('calls as bytes, a script, and memory in and out', () => {
  const call = (number, x = 0, y = 0, place = 0) => Uint8Array.of(number, 0, place, x, 0, 0, 0, y, 0, 0, 0);
  const script = [call(0, 0, 1), ...Array.from('101030323212', (letter) => call(1, Number(letter))), call(4), call(5, 1, 1)];
  const joined = new Uint8Array(script.flatMap((one) => [...one]));
  const holder = rq.holder();
  const replies = script.map((one) => holder.call(one));
  assert.deepEqual(rq.replay(joined), replies);
  assert.equal(replies.at(-1).word, 1);
  assert.deepEqual(rq.replay(new Uint8Array(0)), []);
  assert.equal(holder.call(call(9)), undefined);
  assert.equal(holder.call(new Uint8Array(12)), undefined);
  const memory = holder.toBytes();
  assert.equal(memory.length, 10416);
  assert.deepEqual(rq.holderFrom(memory).query(0, 0, cell(1, 1)), { word: 'inside' });
  assert.throws(() => rq.holderFrom(memory.subarray(1)), /10416 bytes, not 10415/);
  const pile = rq.pile();
  pile.set(3, plus);
  assert.deepEqual(rq.pileFrom(pile.toBytes()).toBytes(), pile.toBytes());
});

test('frames', () => {
  const body = Uint8Array.of(5, 0, 0, 1, 0, 0, 0, 1, 0, 0, 0);
  const { frame } = rq.frame(body);
  assert.deepEqual([...frame.subarray(0, 4)], [0x52, 0x51, 11, 0]);
  assert.deepEqual(rq.unframe(frame), { body });
  for (let bit = 0; bit < 8 * frame.length; bit += 1) {
    const damaged = frame.slice();
    damaged[bit >> 3] ^= 1 << (bit & 7);
    assert.equal(rq.unframe(damaged).refusal.name, 'frame');
  }
  assert.deepEqual(rq.unframe(rq.frame(new Uint8Array(0)).frame), { body: new Uint8Array(0) });
});

test('a reading without a holder', () => {
  const { anchor, edges: four } = rq.test(plus);
  const at = (angle, load) => rq.looseReading({ anchor, edges: four, angle, load });
  assert.deepEqual([at(1, 1), at(0.5, 1.5), at(3, 3)].map((reply) => reply.word), ['inside', 'undecided', 'outside']);
  assert.equal(at(NaN, 1).refusal.name, 'cell');
  assert.equal(rq.looseReading({ anchor, edges: edges(1, 0), angle: 1, load: 1 }).refusal.name, 'directions');
});

test('a foreign module is told apart', async () => {
  const empty = Uint8Array.of(0, 0x61, 0x73, 0x6d, 1, 0, 0, 0);
  assert.throws(() => loadSync(empty), /not Robequarry 0\.4\.0: it has no rq_version/);
  await assert.rejects(load(empty), /not Robequarry/);
  await assert.rejects(load('/no/such/file.wasm'), /ENOENT/);
});

test('edges with a hole are an argument that is none', () => {
  const holed = edges(1, 1, 1, -1, -1, -1, -1, 1);
  delete holed[1];
  assert.throws(() => rq.looseQuery({ anchor: cell(0, 0), edges: holed, cell: cell(0, 0) }), /edges\[1\] must be an object/);
});
