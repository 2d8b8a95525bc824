// review.mjs LIST OUT [--write] FOLDER...: holds what coverage.mjs found to the reviewed list of conditions that go only one way.
// A line of LIST, with tabs between: the function of the source; its condition; how many instructions of the object go only one way, in
// each of four folders; and the reason, as "kind: sentence". Exit status 1 where a number is another one or a reason is missing. With
// --write the numbers are written; each that has changed is printed, and a line without a reason still fails.
import { existsSync, readFileSync, writeFileSync } from 'node:fs';

const [list, out, ...rest] = process.argv.slice(2);
const writes = rest[0] === '--write', folders = writes ? rest.slice(1) : rest;
const columns = ['cortex-m4f', 'small/cortex-m4f', 'cortex-m0plus', 'small/cortex-m0plus'];
const textOf = (file) => (existsSync(file) ? readFileSync(file, 'utf8').split('\n') : []);

const head = [], reviewed = new Map();
for (const line of textOf(list)) {
    if (line.startsWith('#')) head.push(line);
    else if (line !== '') {
        const [name, condition, ...more] = line.split('\t');
        reviewed.set(`${name}\t${condition}`, { counts: more.slice(0, 4).map(Number), reason: more[4] ?? '' });
    }
}

let bad = 0;
const kinds = new Map();
for (const folder of folders) {
    const column = columns.indexOf(folder), found = new Map();
    for (const line of textOf(`${out}/one-way-${folder.replace('/', '-')}`)) {
        const [name, condition, count, places] = line.split('\t');
        if (places) found.set(`${name}\t${condition}`, { count: Number(count), places });
    }
    for (const key of new Set([...found.keys(), ...reviewed.keys()])) {
        const line = reviewed.get(key) ?? { counts: [0, 0, 0, 0], reason: '' }, count = found.get(key)?.count ?? 0;
        if (count === line.counts[column] && (count === 0 || line.reason !== '')) {
            const kind = line.reason.split(':')[0];
            kinds.set(kind, (kinds.get(kind) ?? 0) + count);
            continue;
        }
        const had = `${line.counts[column]}${line.reason === '' ? ' without a reason' : ''}`;
        console.log(`object: ${folder}: ${key.replace('\t', ': ')}: ${count} go one way, and ${list} ${writes ? 'had' : 'has'} ${had}`);
        if (writes) {
            line.counts[column] = count;
            reviewed.set(key, line);
        }
        if (!writes || line.reason === '') bad++;
        if (found.has(key)) console.log(`    ${found.get(key).places.replaceAll('; ', '\n    ')}`);
    }
}
if (writes) {
    const lines = [...reviewed].filter(([, { counts }]) => counts.some((count) => count > 0)).sort(([a], [b]) => (a < b ? -1 : 1));
    writeFileSync(list, [...head, ...lines.map(([key, { counts, reason }]) => [key, ...counts, reason].join('\t')), ''].join('\n'));
}
console.log(`object: one way, by the kind of reason: ${[...kinds].filter(([, n]) => n > 0).map(([kind, n]) => `${kind} ${n}`).join(', ')}`);
process.exitCode = bad > 0 ? 1 : 0;
