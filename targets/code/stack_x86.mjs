// stack_x86.mjs PROGRAM ARCHIVE: upper bounds, for every input, on the stack of each function that the archive exports, on x86-64: the
// deepest path of the call graph, the 8 bytes of a call's return address included. What is not understood ends it: recursion, an indirect
// call, an unknown change of the stack pointer. Each function must fit the second column of the header's table.
import { execFileSync } from 'node:child_process';
import { readStated } from './stated.mjs';

const [program, archive] = process.argv.slice(2);
const run = (command, ...words) => execFileSync(command, words, { encoding: 'utf8', maxBuffer: 1 << 28 });
const functions = [], home = new Map();
for (const line of run('objdump', '-d', '--no-show-raw-insn', program).split('\n')) {
    const head = /^([0-9a-f]+) <(.+)>:$/.exec(line), found = /^\s+([0-9a-f]+):\t(\S+)\s*(.*)$/.exec(line);
    if (head) functions.push({ name: head[2], address: parseInt(head[1], 16), code: [] });
    if (!found) continue;
    const goal = /(?:^|\s)([0-9a-f]+) </.exec(found[3]);
    const i = { address: parseInt(found[1], 16), name: found[2], operands: found[3].replace(/\s*#.*/, '') };
    if (goal) i.goal = parseInt(goal[1], 16);
    functions.at(-1).code.push(i);
    home.set(i.address, functions.at(-1));
}

const fail = (f, i, what) => {
    throw new Error(`${f.name} at ${i.address.toString(16)}: ${i.name} ${i.operands}: ${what}`);
};
/** Bytes by which an instruction makes the stack larger. */
function growth(f, i) {
    const constant = /^\$(-?)(0x[0-9a-f]+),%rsp$/.exec(i.operands);
    const number = constant && Number(constant[2]) * (constant[1] === '-' ? -1 : 1);
    if (/^push/.test(i.name)) return 8;
    if (/^pop/.test(i.name)) return -8;
    if (/^sub/.test(i.name) && constant) return number;
    if (/^add/.test(i.name) && constant) return -number;
    const writes = /,%rsp$/.test(i.operands) && !/^(cmp|test)/.test(i.name);
    if (writes || /^(leave|enter)/.test(i.name)) fail(f, i, 'an unknown change of the stack');
    return 0;
}

const depths = new Map(), open = new Set();
/**
 * Bytes of stack from a function's entry, at most. A frame is set up once, at the entry, and taken down before each return, so the depth is
 * followed in order of address: after a return it is what it was before the frame was taken down.
 */
function stackOf(f) {
    if (depths.has(f)) return depths.get(f);
    if (open.has(f)) throw new Error(`${f.name} calls itself`);
    open.add(f);
    let depth = 0, framed = 0, most = 0;
    for (const i of f.code) {
        depth += growth(f, i);
        framed = Math.max(framed, depth);
        most = Math.max(most, depth);
        const isJump = /^j/.test(i.name), goes = home.get(i.goal);
        if (/^call/.test(i.name)) {
            if (!goes) fail(f, i, 'an indirect call');
            most = Math.max(most, depth + 8 + stackOf(goes));
        } else if (isJump && goes && goes !== f) {
            most = Math.max(most, depth + stackOf(goes));
        } else if (isJump && !goes && i.name !== 'jmp') fail(f, i, 'an unknown jump'); // `jmp *` is a switch
        if (/^ret/.test(i.name) || (i.name === 'jmp' && goes && goes !== f)) depth = framed;
    }
    open.delete(f);
    depths.set(f, most);
    return most;
}

const exported = new Set(run('nm', archive).split('\n').flatMap((line) => / T (rq_.+)$/.exec(line)?.[1] ?? []));
const statedFor = readStated(1);
let status = 0;
for (const f of functions.filter(({ name }) => exported.has(name))) {
    const bytes = stackOf(f) + 8, most = statedFor(f.name);
    console.log(`${f.name}\t${bytes}`);
    if (bytes > most) {
        console.log(`bounds: x86_64-linux: ${f.name} needs ${bytes} bytes of stack, and the header states ${most}`);
        status = 1;
    }
}
process.exitCode = status;
