// Where the instructions of a function lead, its loops, and what each instruction does to the stack.

/** Anything that these tools do not understand ends them: a bound must not rest on a guess. */
export class NotUnderstood extends Error {}
const fail = (f, i, what) => {
    throw new NotUnderstood(`${f.name} at ${i.address.toString(16)}: ${i.name} ${i.operands}: ${what}`);
};

export const isSwitch = ({ isData, name, operands }) =>
    !isData && (/^tb[bh]$/.test(name) || (/^(add|mov)$/.test(name) && operands.startsWith('pc,')));

/** The bytes of the data that follow an instruction, where a switch has its table. */
function tableAfter(f, i) {
    let k = f.code.indexOf(i) + 1;
    while (f.code[k]?.name === 'nop') k++;
    const bytes = [];
    for (; f.code[k]?.isData; k++) bytes.push(...f.code[k].raw.match(/../g).map((byte) => parseInt(byte, 16)).reverse());
    return bytes;
}

/**
 * Where a switch leads. Thumb-2 has TBB and TBH, with distances in bytes and halfwords. In Thumb-1 clang writes `add pc` with distances in
 * bytes, and `mov pc` with addresses. A table ends where the first of its goals begins.
 */
export function switchGoals(f, i) {
    const bytes = tableAfter(f, i), goals = new Set(), start = i.address + i.size;
    const width = i.name === 'tbh' ? 2 : i.name === 'mov' ? 4 : 1;
    let end = Infinity;
    for (let k = 0; k + width <= bytes.length && start + k < end; k += width) {
        let value = 0;
        for (let b = width - 1; b >= 0; b--) value = value * 256 + bytes[k + b];
        const goal = width === 4 ? value & ~1 : i.address + 4 + 2 * value;
        const at = f.at.get(goal);
        if (!at || at.isData) {
            if (width === 4) break;
            continue; // a byte that fills the last word up
        }
        goals.add(goal);
        if (goal > i.address) end = Math.min(end, goal);
    }
    if (goals.size === 0) fail(f, i, 'a switch without a table');
    return [...goals];
}

/** How many registers a list has: "r4, r5, d8-d11" has six. */
function registers(list) {
    return list.split(',').reduce((sum, one) => {
        const range = /^\s*[rds](\d+)-[rds](\d+)/.exec(one);
        return sum + (range ? Number(range[2]) - Number(range[1]) + 1 : 1);
    }, 0);
}

/** The number that `ldr rN, [pc, #x]` loads, from the word that stands there. */
function loaded(f, i) {
    const found = /^r\d+, \[pc, #(\d+)\]$/.exec(i.operands);
    const word = found && f.at.get(((i.address + 4) & ~3) + Number(found[1]));
    return word?.isData ? Number(word.operands) | 0 : undefined;
}

/** The constant that a register has before an instruction, looked for backward in straight code. */
export function constantBefore(f, i, register) {
    let k = f.code.indexOf(i), shift = 0;
    while (--k >= 0) {
        const j = f.code[k];
        if (j.isData || j.isConditional || j.isCall || j.isReturn || j.name === 'b') return undefined;
        const [to, from, by] = j.operands.split(', ');
        if (to !== register || /^(str|cmp|tst|push)/.test(j.name)) continue;
        if (j.name === 'ldr') return loaded(f, j) === undefined ? undefined : loaded(f, j) << shift;
        if (/^mov[sw]?$/.test(j.name) && /^#\d+$/.test(from)) return Number(from.slice(1)) << shift;
        if (j.name !== 'lsls') return undefined;
        shift += Number(by.slice(1));
        if (from !== register) {
            const value = constantBefore(f, j, from);
            return value === undefined ? undefined : value << shift;
        }
    }
    return undefined;
}

/** Bytes by which an instruction makes the stack larger. */
export function growth(f, i) {
    const { name, operands } = i;
    const list = /\{(.*)\}/.exec(operands)?.[1];
    if (name === 'push' || (name === 'stmdb' && operands.startsWith('sp!'))) return 4 * registers(list);
    if (/^pop/.test(name) || (/^ldmia/.test(name) && operands.startsWith('sp!'))) return -4 * registers(list);
    if (name === 'vpush' || name === 'vpop') return (name === 'vpush' ? 1 : -1) * (/d/.test(list) ? 8 : 4) * registers(list);
    if (/^(sub|add)/.test(name) && operands.startsWith('sp,')) {
        const sign = name.startsWith('sub') ? 1 : -1;
        const fixed = /^sp, (?:sp, )?#(\d+)$/.exec(operands);
        if (fixed) return sign * Number(fixed[1]);
        const register = /^sp, (?:sp, )?(r\d+)$/.exec(operands)?.[1];
        const value = register && constantBefore(f, i, register);
        if (value === undefined) fail(f, i, 'the stack changes by an unknown amount');
        return sign * value;
    }
    const before = /\[sp, #-(\d+)\]!$/.exec(operands), after = /\[sp\], #(\d+)$/.exec(operands);
    if (before && /^v?str/.test(name)) return Number(before[1]);
    if (after && /^v?ldr/.test(name)) return -Number(after[1]);
    const sets = /^(mov|mvn|ldr|bic|and|orr|msr|lsl|lsr)/.test(name) && /^(sp|msp|psp)\b/.test(operands);
    if (before || after || sets || /\bsp!/.test(operands)) fail(f, i, 'the stack changes in an unknown way');
    return 0;
}

/** The addresses that may come after an instruction. A call comes back. */
export function successors(f, i) {
    const next = i.address + i.size;
    if (isSwitch(i)) return switchGoals(f, i);
    if (i.isConditional) return [next, i.goal];
    if (i.name === 'b') return [i.goal];
    if (i.name === 'udf') return [];
    if (i.name === 'bx' && i.operands !== 'lr') fail(f, i, 'a jump to an unknown place');
    if (i.isReturn) return i.returnsSometimes ? [next] : [];
    if (i.name === 'blx' || (i.isCall && i.goal === undefined)) fail(f, i, 'an indirect call');
    if (/^b/.test(i.name) && !/^(bl|bx|bic|bfc|bfi|bkpt)/.test(i.name)) fail(f, i, 'an unknown branch');
    return [next];
}

/** The graph of a function from an entry: its addresses in reverse postorder, and the successors of each, inside and outside. */
export function graphOf(f, entry) {
    const nodes = new Map(), order = [], work = [{ address: entry, done: false }];
    while (work.length > 0) {
        const { address, done } = work.pop();
        if (done) {
            order.push(address);
            continue;
        }
        if (nodes.has(address)) continue;
        const i = f.at.get(address);
        if (!i || i.isData) throw new NotUnderstood(`${f.name}: no instruction at ${address.toString(16)}`);
        const all = successors(f, i);
        nodes.set(address, { i, inside: all.filter((a) => f.at.has(a)), outside: all.filter((a) => !f.at.has(a)) });
        work.push({ address, done: true });
        for (const a of nodes.get(address).inside) work.push({ address: a, done: false });
    }
    return { entry, nodes, order: order.reverse() };
}

/** Immediate dominators, by Cooper, Harvey and Kennedy: of each address the one that every path to it passes last. */
function dominatorsOf(graph, place, before) {
    const dominator = new Map([[graph.entry, graph.entry]]);
    const common = (a, b) => {
        while (a !== b) {
            while (place.get(a) > place.get(b)) a = dominator.get(a);
            while (place.get(b) > place.get(a)) b = dominator.get(b);
        }
        return a;
    };
    for (let changed = true; changed; ) {
        changed = false;
        for (const a of graph.order.slice(1)) {
            const now = before.get(a).filter((b) => dominator.has(b)).reduce(common);
            if (dominator.get(a) !== now) {
                dominator.set(a, now);
                changed = true;
            }
        }
    }
    return dominator;
}

/** The loops of a graph: header, addresses, and the loop around it. A jump into the middle of a loop fails. */
export function loopsOf(f, graph) {
    const place = new Map(graph.order.map((a, k) => [a, k]));
    const before = new Map(graph.order.map((a) => [a, []]));
    for (const [a, node] of graph.nodes) for (const b of node.inside) before.get(b).push(a);
    const dominator = dominatorsOf(graph, place, before);
    const dominates = (a, b) => {
        while (place.get(b) > place.get(a)) b = dominator.get(b);
        return a === b;
    };
    const loops = new Map();
    for (const [a, node] of graph.nodes) {
        for (const header of node.inside.filter((b) => place.get(b) <= place.get(a))) {
            if (!dominates(header, a)) fail(f, node.i, 'a jump into the middle of a loop');
            const loop = loops.get(header) ?? { header, body: new Set([header]), ends: [] };
            loops.set(header, loop);
            loop.ends.push(a);
            const work = [a];
            while (work.length > 0) {
                const c = work.pop();
                if (loop.body.has(c)) continue;
                loop.body.add(c);
                work.push(...before.get(c));
            }
        }
    }
    const sorted = [...loops.values()].sort((a, b) => a.header - b.header);
    for (const loop of sorted) {
        const around = sorted.filter((other) => other !== loop && other.body.has(loop.header));
        loop.around = around.sort((a, b) => a.body.size - b.body.size)[0];
    }
    return sorted;
}

/**
 * The longest path, in instructions: of the whole graph where `loop` is undefined; or from the head of a loop, back to it, or with
 * `costs.leaves` out of the loop. `costs` says what a call costs besides its instruction, what a goal outside of the function costs, and
 * what a loop costs that is met on the way. -Infinity stands for what does not happen: a path does not lead there, and the result is
 * -Infinity where none is left. `costs.trace` gets each step.
 */
export function longestPath(graph, loops, loop, costs) {
    const innermost = new Map();
    for (const l of [...loops].sort((a, b) => b.body.size - a.body.size)) for (const a of l.body) innermost.set(a, l);
    // The loop just inside `loop` that has an address, if there is one.
    const childOf = (a) => {
        let l = innermost.get(a);
        if (l === loop) return undefined;
        while (l && l.around !== loop) l = l.around;
        return l;
    };
    const keyOf = (a) => childOf(a)?.header ?? a;
    const isNext = (b) => !loop || (loop.body.has(b) && b !== loop.header);
    // What may come after an address or the loop inside that begins there; and what it costs to end there, by a return, a jump out or a
    // round that is over.
    const after = (a) => {
        const child = childOf(a), members = (child ? [...child.body] : [a]).map((b) => graph.nodes.get(b));
        const exits = members.flatMap(({ inside }) => inside.filter((b) => !child?.body.has(b)));
        const next = exits.filter(isNext).map(keyOf);
        if (loop && !costs.leaves) return { next, ends: exits.includes(loop.header) ? [0] : [] };
        const ends = members.flatMap(({ i, outside }) => outside.map((goal) => costs.outside(goal, i)));
        const stops = members.some(({ i, inside, outside }) => i.isReturn || inside.length + outside.length === 0);
        if (stops || exits.some((b) => loop && !loop.body.has(b))) ends.push(0);
        return { next, ends };
    };
    const known = new Map(), first = keyOf(loop ? loop.header : graph.entry), stack = [first];
    while (stack.length > 0) {
        const a = stack.at(-1);
        if (known.has(a)) {
            stack.pop();
            continue;
        }
        const { next, ends } = after(a), open = next.filter((b) => !known.has(b));
        if (open.length > 0) {
            stack.push(...open);
            continue;
        }
        stack.pop();
        const child = childOf(a), own = child ? costs.loop(child) : 1 + costs.call(graph.nodes.get(a).i);
        let then = Math.max(-Infinity, ...ends), goal;
        for (const b of next) if (known.get(b).cost > then) [then, goal] = [known.get(b).cost, b];
        known.set(a, { cost: own + then, own, child, goal, then });
    }
    if (costs.trace) for (let a = first; a !== undefined; a = known.get(a).goal) costs.trace(known.get(a), graph.nodes.get(a).i);
    return known.get(first).cost;
}
