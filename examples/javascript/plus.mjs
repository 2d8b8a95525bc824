// Tests a plus of five cells, and says where a reading lies in it.
//     node plus.mjs PATH/robequarry.wasm
import { load } from '../../js/node.js';

const rq = await load(process.argv[2]);
const plus = { start: { col: 0, row: 1 }, letters: '101030323212' };
const verdict = rq.test(plus);
if (!verdict.taken) throw new Error(`refused: ${verdict.refusal.name}`);
console.log(`taken: ${verdict.edges.length} edges from cell (${verdict.anchor.col}, ${verdict.anchor.row})`);

const holder = rq.holder();
holder.begin(0, plus.start);
for (const letter of plus.letters) holder.add(0, Number(letter));
holder.close(0, 0);
console.log(`the reading (1, 1.25) is ${holder.reading(0, 0, { angle: 1, load: 1.25 }).word}`);
