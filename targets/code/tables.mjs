// tables.mjs OUT DOCUMENT [--write]: holds the tables of DOCUMENT to what `targets/object coverage` and `targets/object bounds` have left
// in OUT, for all four folders; with --write it writes them anew. A table is known by its first line. Exit status 1 where one is another.
import { existsSync, readFileSync, writeFileSync } from 'node:fs';

const [out, file, write] = process.argv.slice(2);
const folders = ['cortex-m4f', 'small/cortex-m4f', 'cortex-m0plus', 'small/cortex-m0plus'];
const nameOf = (folder) => folder.replace('/', '-');
const linesOf = (name) => {
    if (!existsSync(`${out}/${name}`)) throw new Error(`tables: ${out}/${name} is missing: targets/object writes it`);
    return readFileSync(`${out}/${name}`, 'utf8').trim().split('\n');
};
const grouped = (n) => (/^\d+$/.test(n) ? String(n).replace(/\B(?=(\d{3})+$)/g, ',') : n);
const row = (...cells) => `| ${cells.map(grouped).join(' | ')} |`;
const byFirst = (lines) => new Map(lines.map((line) => line.split('\t')).map((words) => [words[0], words.slice(1)]));

function coverage() {
    return folders.map((folder) => {
        const [both, branches, sides, blocks, never, ran, code] = linesOf(`coverage-${nameOf(folder)}`).at(-1).split(': ')[1].match(/\d+/g);
        const oneWay = linesOf(`one-way-${nameOf(folder)}`).reduce((sum, line) => sum + Number(line.split('\t')[2]), 0);
        const of = (a, b) => (b === '0' ? 'none' : `${grouped(a)} of ${grouped(b)}`);
        return row(folder, of(both, branches), of(sides, blocks), never, of(ran, code), String(oneWay));
    });
}

function bounds() {
    const tables = folders.map((folder) => byFirst(linesOf(`bounds-${nameOf(folder)}`))), here = byFirst(linesOf('stack-x86_64-linux'));
    return [...tables[0].keys()].filter((name) => name.startsWith('rq_')).map((name) =>
        row(name, ...tables.map((table) => table.get(name)[0]), here.get(name)[0], ...tables.map((table) => table.get(name)[1])));
}

/** The calls of a control loop first, as the document has them, then the others. */
function ratios() {
    const first = ['query', 'row', 'add', 'reading', 'piece', 'pile query', 'draft', 'begin', 'drop', 'clear'];
    const lines = linesOf('ratios-cortex-m4f').map((line) => line.split('\t')).filter((words) => words[5] > 0);
    const plain = (call) => call.replace('call_', '').replaceAll('_', ' ');
    const calls = new Map(lines.map(([call, , , found, most, ratio]) => [plain(call), [most, found, ratio]]));
    const names = [...first, ...[...calls.keys()].filter((name) => !first.includes(name) && name !== 'pile step' && name !== 'bytes')];
    return names.map((name) => row(name, ...calls.get(name)));
}

const tables = {
    '| folder | branches both ways |': coverage,
    '| function | stack: Cortex-M4F fast |': bounds,
    '| call | at most | worst found |': ratios,
};
const lines = readFileSync(file, 'utf8').split('\n');
let bad = 0;
for (const [head, rows] of Object.entries(tables)) {
    const from = lines.findIndex((line) => line.startsWith(head)) + 2, now = rows();
    let to = from;
    while (lines[to].startsWith('|')) to++;
    const old = lines.splice(from, to - from, ...now);
    for (const line of now.filter((line) => !old.includes(line))) {
        bad++;
        console.log(`tables: ${write ? 'written' : 'another figure'}: ${line}`);
    }
    bad += old.filter((line) => !now.includes(line)).length;
}
if (write) writeFileSync(file, lines.join('\n'));
process.exitCode = bad > 0 && !write ? 1 : 0;
