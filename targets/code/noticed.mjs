// noticed.mjs LIST UNNOTICED REVIEWED: holds the alterations that the corpus does not notice to a reviewed list of them. A line of
// REVIEWED, with tabs between: the function, what was done, the text before and after, the reason. Exit status 1 where one is not there.
import { readFileSync } from 'node:fs';

const [list, unnoticed, reviewed] = process.argv.slice(2);
const linesOf = (file) => readFileSync(file, 'utf8').split('\n').filter((line) => line !== '' && !line.startsWith('#'));
// The names of registers are another function's after a change of that one, so they are left out.
const keyOf = (words) => [0, 1, 2, 3].map((k) => words[k] ?? '').join('\t').replace(/%r\d+/g, '%');

const reasons = new Map(linesOf(reviewed).map((line) => line.split('\t')).map((words) => [keyOf(words), words[4]]));
const kinds = new Map();
let bad = 0;
for (const line of linesOf(unnoticed)) {
    const words = line.split('\t').slice(1), reason = reasons.get(keyOf(words));
    const kind = reason?.split(':')[0] ?? 'without a reason';
    kinds.set(kind, (kinds.get(kind) ?? 0) + 1);
    if (reason) continue;
    bad++;
    console.log(`object: not noticed: ${words.join('\t')}`);
}
const count = linesOf(list).length, missed = linesOf(unnoticed).length;
const others = [...kinds].map(([kind, n]) => `${kind} ${n}`).join(', ');
console.log(`object: ${count - missed} of ${count} alterations noticed; the others: ${others}`);
process.exitCode = bad > 0 ? 1 : 0;
