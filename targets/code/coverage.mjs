// coverage.mjs FOLDER PROGRAM ARCHIVE BLOCKS OUT [IT_PROGRAM IT_LINES]: what of the library's object code the corpus has reached.
// BLOCKS is what branches.c wrote, and IT_LINES what conditions.c wrote. To OUT goes a line for each condition of the source of which the
// object has a branch, an IT block or a case of a switch that went only one way: function, condition, how often, and which instructions.
// The standard output has a line for each function and the sums.
import { readFileSync, writeFileSync } from 'node:fs';
import { functionsOf, namesOf, originsOf } from './listing.mjs';
import { readModule } from './origin.mjs';
import { isSwitch, switchGoals } from './graph.mjs';

const [folder, program, archive, blocks, out, itProgram, itLines] = process.argv.slice(2);
const { own } = namesOf(archive);
const ownFunctions = (file) => functionsOf(file).filter((f) => own.has(f.name));
const functions = ownFunctions(program);

/** What ran; and after which last instructions of a block elsewhere or the next instruction came. */
function readBlocks() {
    const ran = new Set(), elsewhere = new Set(), next = new Set();
    const code = functions.flatMap((f) => f.code).filter((i) => !i.isData);
    const index = new Map(code.map((i, k) => [i.address, k]));
    for (const line of readFileSync(blocks, 'utf8').trim().split('\n')) {
        const [first, last] = line.split(' ').slice(0, 2).map((word) => parseInt(word, 16));
        const [runs, went, fell] = line.split(' ').slice(2).map(Number);
        if (runs === 0 || !index.has(first)) continue;
        for (let k = index.get(first); k < code.length && code[k].address <= last; k++) ran.add(code[k].address);
        if (went > 0) elsewhere.add(last);
        if (fell > 0) next.add(last);
    }
    return { ran, elsewhere, next };
}

/** The sides of each IT block that were seen, by function and ordinal: the program of conditions.c has other addresses. */
function readConditions() {
    const sides = new Map(), seen = new Map();
    if (!itLines) return sides;
    for (const line of readFileSync(itLines, 'utf8').split('\n')) {
        const found = /^it ([0-9a-f]+) ([123])$/.exec(line);
        if (found) seen.set(parseInt(found[1], 16), Number(found[2]));
    }
    for (const f of ownFunctions(itProgram)) {
        f.code.filter((i) => !i.isData && i.name === 'svc').forEach((i, k) => sides.set(`${f.name} ${k}`, seen.get(i.address) ?? 0));
    }
    return sides;
}

const { ran, elsewhere, next } = readBlocks();
const sides = readConditions();
const total = { branches: 0, bothWays: 0, blocks: 0, bothSides: 0, code: 0, ran: 0, behind: 0 };
const gaps = [];

/** Counts a branch or an IT block, and notes it where it went only one way. What never ran stands behind another one that did. */
function look(f, i, own) {
    let missing;
    if (i.isIt) {
        const side = sides.get(`${f.name} ${own.blocks++}`) ?? 0;
        if (side === 3) own.bothSides++;
        else missing = side === 0 ? 'run' : side === 1 ? 'skipped' : 'done';
    } else {
        own.branches++;
        const taken = elsewhere.has(i.address), passed = next.has(i.address);
        if (taken && passed) own.bothWays++;
        else missing = !ran.has(i.address) ? 'run' : taken ? 'passed' : 'taken';
    }
    if (missing === 'run') own.behind++;
    else if (missing) gaps.push({ f, i, missing });
}

console.log('function\tbranches\tboth ways\tIT blocks\tboth ways\tinstructions\tnever run');
for (const f of functions) {
    const own = { branches: 0, bothWays: 0, blocks: 0, bothSides: 0, code: 0, ran: 0, behind: 0 };
    for (const i of f.code.filter((i) => !i.isData)) {
        own.code++;
        if (ran.has(i.address)) own.ran++;
        if (i.isConditional || (i.isIt && itLines)) look(f, i, own);
        if (isSwitch(i) && ran.has(i.address)) {
            for (const goal of switchGoals(f, i)) if (!ran.has(goal)) gaps.push({ f, i, missing: `case ${goal.toString(16)}` });
        }
    }
    for (const part in own) total[part] += own[part];
    console.log([f.name, own.branches, own.bothWays, own.blocks, own.bothSides, own.code, own.code - own.ran].join('\t'));
}
console.log(`${folder}: ${total.bothWays} of ${total.branches} branches went both ways, ${total.bothSides} of ${total.blocks} IT blocks; ` +
    `${total.behind} stand in code that never runs; ${total.ran} of ${total.code} instructions ran`);

const { whatOf, ownFrames } = readModule(new URL('../../target/module/robequarry.ll', import.meta.url).pathname);
const origins = originsOf(program, gaps.map(({ i }) => i.address));
const lines = new Map();
for (const { f, i, missing } of gaps) {
    const origin = ownFrames(origins.get(i.address))[0] ?? { name: f.name, line: 0 };
    const key = `${origin.name}\t${whatOf(origin.line)}`, places = lines.get(key) ?? [];
    places.push(`${f.name} ${i.address.toString(16)} ${i.name} not ${missing}`);
    lines.set(key, places);
}
writeFileSync(out, [...lines].map(([key, places]) => `${key}\t${places.length}\t${places.join('; ')}\n`).sort().join(''));
