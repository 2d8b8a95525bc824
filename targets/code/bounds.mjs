// bounds.mjs FOLDER PROGRAM ARCHIVE LOOPS [PREFIX]: upper bounds, for every input, on the stack and the instructions of each function that
// the archive exports; or of the functions of the program that begin with PREFIX. The stack is the deepest path of the call graph.
// Instructions are the longest path of the code, in which each loop counts its rounds, by the file LOOPS, times its longest round. What is
// not understood ends it: recursion, an indirect call, an unknown change of the stack, a jump into a loop. With LOOPS_OF=FUNCTION it lists
// the loops of that function and what its longest path meets, once for each set of functions that do not run beside it.
import { readFileSync } from 'node:fs';
import { functionsOf, namesOf, originsOf } from './listing.mjs';
import { readModule } from './origin.mjs';
import { readStated } from './stated.mjs';
import { NotUnderstood, constantBefore, graphOf, growth, longestPath, loopsOf, successors } from './graph.mjs';

const [folder, program, archive, loopsFile, prefix] = process.argv.slice(2);
const functions = functionsOf(program);
const { exported } = namesOf(archive);
const { loopOf, hasLoop, ownFrames } = readModule(new URL('../../target/module/robequarry.ll', import.meta.url).pathname);
const home = new Map();
for (const f of functions) for (const i of f.code) home.set(i.address, f);
const homeOf = (address) => {
    if (!home.has(address)) throw new NotUnderstood(`no function at ${address.toString(16)}`);
    return home.get(address);
};

// Stack.

const stacks = new Map(), open = new Set();
/** Bytes of stack from an entry, at most. */
function stackFrom(entry) {
    if (stacks.has(entry)) return stacks.get(entry);
    const f = homeOf(entry), depthAt = new Map(), work = [[entry, 0]];
    if (open.has(entry)) throw new NotUnderstood(`${f.name} calls itself`);
    open.add(entry);
    let most = 0;
    while (work.length > 0) {
        const [address, depth] = work.pop();
        if (homeOf(address) !== f) {
            most = Math.max(most, depth + stackFrom(address));
            continue;
        }
        if (depthAt.has(address)) {
            if (depthAt.get(address) !== depth) throw new NotUnderstood(`${f.name} at ${address.toString(16)}: two depths of the stack`);
            continue;
        }
        depthAt.set(address, depth);
        const i = f.at.get(address);
        const now = i.isReturn && i.returnsSometimes ? depth : depth + growth(f, i);
        most = Math.max(most, now, depth);
        const after = successors(f, i);
        if (i.isCall) most = Math.max(most, now + stackFrom(i.goal));
        for (const next of after) work.push([next, now]);
    }
    open.delete(entry);
    stacks.set(entry, most);
    return most;
}

// Instructions. The file LOOPS says how to read its lines.

const columns = ['cortex-m4f', 'small/cortex-m4f', 'cortex-m0plus', 'small/cortex-m0plus'], column = columns.indexOf(folder);
const limits = {}, limitsIn = [], bounds = new Map(), shares = new Map(), apart = [];
for (const line of readFileSync(loopsFile, 'utf8').split('\n')) {
    if (line === '' || line.startsWith('#')) continue;
    const [name, ...words] = line.split('\t'), listed = (text) => text.replace(/^in /, '').split(', ');
    if (name === 'let' && words[2]) limitsIn.push({ limit: { [words[0]]: Number(words[1]) }, functions: listed(words[2]) });
    else if (name === 'let') limits[words[0]] = Number(words[1]);
    else if (name === 'share') shares.set(words[0], { rounds: words[1], around: words[2]?.replace(/^in /, '') });
    else if (name === 'apart') apart.push([words[0].split(', '), words[1].split(', ')]);
    else {
        const [rounds, entries, strides, span] = words, together = /^together ?(.*)/.exec(span ?? '')?.[1];
        const group = together === '' ? name.split(' ')[0] : together;
        bounds.set(name, { rounds, entries, stride: Number(strides?.split(' ')[column] ?? 1) || 1, group });
    }
}
/** A formula of numbers, + - * / and the names that `let` lines give; `bytes` is what a call copies or clears. */
function valueOf(formula, names) {
    if (!/^[\w\s+*/().-]+$/.test(formula)) throw new Error(`loops: no formula: ${formula}`);
    const value = Function(...Object.keys(names), `return ${formula}`)(...Object.values(names));
    if (!Number.isFinite(value)) throw new NotUnderstood(`loops: no number: ${formula}`);
    return Math.ceil(value);
}

const isMemory = (name) => /^(__aeabi_mem|mem|fill|forward|copy)/.test(name) && !name.includes('::');
/** What a memory function does. */
const kindOf = (name) => (!isMemory(name) ? name : /memclr|memset|fill/.test(name) ? 'clear' : 'copy');

const parts = new Map();
/** The code from an entry: its function, graph and loops, and where its instructions come from. */
function partAt(entry) {
    if (parts.has(entry)) return parts.get(entry);
    const f = homeOf(entry);
    if (bounds.has(`${f.name} whole`)) return { f, names: new Set([f.name]) };
    const graph = graphOf(f, entry), loops = loopsOf(f, graph), origins = new Map([...originsOf(program, [...graph.nodes.keys()])].map(([a, frames]) => [a, ownFrames(frames)]));
    const part = { f, graph, loops, origins };
    nameLoops(part);
    part.names = new Set([f.name, ...[...origins.values()].flat().map(({ name }) => name)]);
    for (const { i, outside } of graph.nodes.values()) {
        for (const goal of i.isCall ? [i.goal, ...outside] : outside) for (const name of partAt(goal).names) part.names.add(name);
    }
    parts.set(entry, part);
    return part;
}

/**
 * The names of loops: that of the source's loop whose condition stands in it or whose end leads back, the outermost one that is not the
 * loop's around it. Then " in " and the name of the loop around it. `inside` are the functions of the source that it stands in.
 */
function nameLoops({ f, loops, origins }) {
    for (const loop of [...loops].sort((a, b) => b.body.size - a.body.size)) {
        const inner = loops.filter((other) => other.around === loop), names = new Map();
        for (const a of loop.body) {
            const frames = origins.get(a), name = frames[0] && loopOf(frames[0].line);
            if (!name || name === loop.around?.name || inner.some((other) => other.body.has(a))) continue;
            names.set(name, Math.min(frames.length, names.get(name) ?? Infinity));
        }
        for (const frames of loop.ends.map((a) => origins.get(a))) {
            const k = frames.findIndex(({ name }) => hasLoop(name) && !loop.around?.path.split(' in ').includes(name));
            if (k >= 0) names.set(frames[k].name, Math.min(frames.length - k, names.get(frames[k].name) ?? Infinity));
        }
        if (hasLoop(f.name) && !loop.around) names.set(f.name, names.get(f.name) ?? Infinity);
        loop.name = [...names].sort((a, b) => a[1] - b[1])[0]?.[0] ?? `${kindOf(f.name.replace(/::<.*/, ''))} loop ${loops.indexOf(loop) + 1}`;
        loop.path = loop.around ? `${loop.name} in ${loop.around.path}` : loop.name;
        loop.inside = new Set([loop.name, ...loop.ends.flatMap((a) => origins.get(a)).map(({ name }) => name)]);
    }
}

/** The line of LOOPS for a loop: for this folder and with the names of all loops around it, or with fewer of them. */
function boundOf(f, loop) {
    const names = loop.path.split(' in ');
    for (let k = names.length; k > 0; k--) {
        const path = names.slice(0, k).join(' in ');
        for (const key of [`${path} of ${f.name}`, `${folder} ${path}`, path]) if (bounds.has(key)) return bounds.get(key);
    }
    return undefined;
}

/**
 * Rounds that several loops have together: the dearest ones first, each no more than its own, until the sum of its group is reached, and
 * that of the group around it.
 */
function sharedCost(groups, names) {
    const left = new Map(), around = (group) => shares.get(group)?.around;
    const open = (group, rounds) => {
        const own = shares.has(group) ? valueOf(shares.get(group).rounds, names) : Math.max(rounds, left.get(group) ?? 0);
        left.set(group, own);
        if (around(group)) open(around(group), 0);
    };
    for (const { group, rounds } of groups) open(group, rounds);
    let sum = 0;
    for (const { group, rounds, cost } of [...groups].sort((a, b) => b.cost - a.cost)) {
        let taken = rounds;
        for (let g = group; g; g = around(g)) taken = Math.min(taken, left.get(g));
        for (let g = group; g; g = around(g)) left.set(g, left.get(g) - taken);
        sum += taken * cost;
    }
    return Math.ceil(sum);
}

const costs = new Map(), missing = new Set();
let endless = false;
/**
 * Instructions from an entry, at most, where the functions of `without` do not run; -Infinity where there is no such way. `names` are the
 * limits that hold there.
 */
function costFrom(entry, { bytes = 0, without, names }) {
    const part = partAt(entry), { f, graph, loops, origins } = part, whole = bounds.get(`${f.name} whole`);
    for (const { limit, functions } of limitsIn) if (functions.includes(f.name)) names = { ...names, ...limit };
    if (whole) return valueOf(whole.rounds, names);
    const key = [entry, bytes, JSON.stringify(names), ...[...without].filter((name) => part.names.has(name))].join(' ');
    if (costs.has(key)) return costs.get(key);
    const shared = [], shown = process.env.LOOPS_OF === f.name ? [] : undefined;
    const join = (group, rounds, each) => shared.push({ group, rounds, cost: each });

    const callCost = (i, goal) => {
        const target = homeOf(goal).name, frames = origins.get(i.address).map(({ name }) => name);
        if ([target, ...frames].some((name) => without.has(name))) return -Infinity;
        const cost = (count) => costFrom(goal, { bytes: count, without, names });
        if (!isMemory(target)) return cost();
        if (isMemory(f.name)) return cost(bytes);
        // The count's register, by the run-time ABI for the Arm architecture, 4.3.4.
        const constant = constantBefore(f, i, /memclr|__aeabi_memset/.test(target) ? 'r1' : 'r2');
        if (constant !== undefined) return cost(constant);
        const bound = bounds.get(`${frames[0] ?? f.name} bytes`);
        if (!bound) throw new NotUnderstood(`${f.name} at ${i.address.toString(16)}: how many bytes? loops: ${frames[0] ?? f.name} bytes`);
        const most = valueOf(bound.rounds, names);
        if (!bound.group) return cost(most);
        // Calls that share out the bytes among them: each has its own beginning and end, and one has all the bytes.
        join(bound.group, 1, cost(most) - cost(0));
        return cost(16);
    };
    const isOut = (loop) => [...loop.inside].some((name) => without.has(name));
    const calls = { call: (i) => (i.isCall ? callCost(i, i.goal) : 0), outside: (goal, i) => callCost(i, goal) };
    // One round of a loop, back to its head; or its last one, which leaves it. A loop inside that is entered once in each round adds its
    // last round there.
    const roundOf = (loop, leaves) => {
        const inner = (other) => (isOut(other) ? -Infinity : boundOf(f, other)?.entries === 'each' ? roundOf(other, true) : 0);
        return longestPath(graph, loops, loop, { ...calls, leaves, loop: inner });
    };
    // All rounds of a loop where it is met, with those of the loops inside.
    const costOf = (loop) => {
        if (isOut(loop)) return -Infinity;
        const round = Math.max(0, roundOf(loop, false)), last = roundOf(loop, true), bound = boundOf(f, loop);
        if (!bound) missing.add(`${loop.path} of ${f.name}`);
        if (bound?.rounds === 'none') {
            endless = true;
            return 0;
        }
        const { rounds, entries, stride, group } = bound ?? { rounds: '0', entries: '0', stride: 1 };
        const value = (formula) => valueOf(formula, { ...names, bytes });
        const count = value(rounds), times = entries !== 'each' ? value(entries) : loop.around ? 0 : 1;
        shown?.push(`  ${loop.path}\t${loop.header.toString(16)}\tround ${round}\tlast ${last}\t` +
            `rounds ${count} by ${stride}\tentered ${times}`);
        // Where no entry is counted, the last round is one of the rounds.
        const longest = times > 0 ? round : Math.max(round, last);
        if (group) join(group, count, longest / stride);
        const inner = loops.filter((other) => other.around === loop && !isOut(other)).reduce((sum, other) => sum + costOf(other), 0);
        return (group ? 0 : Math.ceil(count / stride) * longest) + (times > 0 ? times * last : 0) + inner;
    };
    let straight = 0;
    const trace = shown && (({ own: cost, child, goal, then }, i) => {
        if (child) shown.push(`  path: loop ${child.path}\t${child.header.toString(16)}\t${cost}`);
        else if (cost > 1) shown.push(`  path: call ${homeOf(i.goal).name}\t${i.address.toString(16)}\t${cost - 1}`);
        if (!child) straight++;
        if (goal === undefined && then > 0) shown.push(`  path: goes on elsewhere\t${i.address.toString(16)}\t${then}`);
    });
    let cost = longestPath(graph, loops, undefined, { ...calls, loop: costOf, trace });
    cost += sharedCost(shared, { ...names, bytes });
    shown?.push(`  together: ${[...new Set(shared.map(({ group }) => group))].join(', ')}\t${sharedCost(shared, { ...names, bytes })}`);
    const title = `${f.name} without ${[...without].join(', ') || 'nothing'}: ${cost}, straight ${straight}`;
    if (shown) console.log([title, ...new Set(shown)].join('\n'));
    costs.set(key, cost);
    return cost;
}

/** Instructions of a function that C calls, at most. Of two lists of functions that exclude each other one does not run, or the other. */
function costOfRoot(entry) {
    const { names } = partAt(entry), has = (list) => list.some((name) => names.has(name));
    const pairs = apart.filter(([one, other]) => has(one) && has(other));
    let most = -Infinity;
    for (let way = 0; way < 1 << pairs.length; way++) {
        const without = new Set(pairs.flatMap((pair, k) => pair[way >> k & 1]));
        most = Math.max(most, costFrom(entry, { without, names: limits }));
    }
    return most;
}

// A name that the module no longer has would leave an exclusion out without a word.
const module = readFileSync(new URL('../../target/module/robequarry.ll', import.meta.url), 'utf8');
const defined = new Set([...module.matchAll(/^define .*?@("?)([^"(]+)\1\(/gm)].map((found) => found[2]));
const named = [...apart.flat(2), ...limitsIn.flatMap(({ functions }) => functions)];
const strangers = named.filter((name) => !defined.has(name));

const statedFor = readStated(0);
let status = 0;
const complain = (text) => {
    console.log(`bounds: ${folder}: ${text}`);
    status = 1;
};
for (const name of strangers) complain(`loops: the module has no function ${name}`);
const isRoot = (f) => (prefix ? f.name.startsWith(prefix) : exported.has(f.name) && f.name.startsWith('rq_'));
const rows = [];
for (const f of functions.filter(isRoot)) {
    let stack = '', most = '';
    try {
        stack = stackFrom(f.address);
        if (!prefix && !(stack <= statedFor(f.name))) {
            complain(`${f.name} needs ${stack} bytes of stack, and the header states ${statedFor(f.name)}`);
        }
        missing.clear();
        endless = false;
        most = costOfRoot(f.address);
        if (endless) most = 'no bound';
        if (missing.size > 0) {
            complain(`${f.name}: loops without a bound: ${[...missing].join(', ')}`);
            most = '';
            costs.clear();
        }
    } catch (error) {
        if (!(error instanceof NotUnderstood)) throw error;
        complain(`${f.name}: ${error.message}`);
        open.clear();
    }
    rows.push([f.name, stack, most].join('\t'));
}
console.log('function\tstack\tinstructions');
for (const row of rows) console.log(row);
process.exitCode = status;
