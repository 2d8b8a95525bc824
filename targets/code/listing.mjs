// The functions and instructions of a linked program for a Cortex-M, from objdump's listing of it; and where in the module each comes from.
import { execFileSync } from 'node:child_process';

const run = (command, words, input) => execFileSync(command, words, { encoding: 'utf8', maxBuffer: 1 << 28, input });

const conditions = 'eq|ne|cs|hs|cc|lo|mi|pl|vs|vc|hi|ls|ge|lt|gt|le';
const conditionalBranch = new RegExp(`^(cbn?z|b(${conditions}))$`);
const conditionalReturn = new RegExp(`^(pop|bx|ldmia|mov|ldr)(${conditions})$`);
const isReturn = ({ name, operands }) =>
    (/^(pop|ldmia)/.test(name) && /\bpc\b/.test(operands)) || /^bx/.test(name) || (/^(ldr|mov)/.test(name) && operands.startsWith('pc'));

/** Where a branch or a call goes: `1a2b <name+0x10>` is 0x1a2b. */
const goalOf = (operands) => {
    const found = /(?:^|\s)([0-9a-f]+) <[^>]+>/.exec(operands);
    return found ? parseInt(found[1], 16) : undefined;
};

/** One line of the listing: an instruction or a piece of data, or undefined. Names are without .n and .w, operands without comments. */
function instruction(line) {
    const found = /^\s+([0-9a-f]+):\t([0-9a-f ]+?)\s*\t(\S+)\s*(.*)$/.exec(line);
    if (!found) return undefined;
    const raw = found[2].replaceAll(' ', ''), isData = found[3].startsWith('.');
    const i = { address: parseInt(found[1], 16), size: raw.length / 2, raw, isData };
    i.name = found[3].replace(/\.[nw]$/, '');
    i.operands = found[4].replace(/\s*[;@].*$/, '').trim();
    if (isData) return i;
    i.isConditional = conditionalBranch.test(i.name);
    i.isIt = /^it[te]*$/.test(i.name);
    i.isCall = /^blx?$/.test(i.name);
    i.isReturn = !i.isConditional && isReturn(i);
    i.returnsSometimes = i.isReturn && conditionalReturn.test(i.name);
    i.goal = goalOf(i.operands);
    return i;
}

/** The bytes of each function, by address. What lies between functions is no code, though objdump lists it. */
function sizesOf(program) {
    const sizes = new Map();
    for (const line of run('arm-none-eabi-nm', ['-S', program]).split('\n')) {
        const found = /^([0-9a-f]{8}) ([0-9a-f]{8}) [TtWw] /.exec(line);
        if (found) sizes.set(parseInt(found[1], 16) & ~1, parseInt(found[2], 16));
    }
    return sizes;
}

/** The functions of a program, in order of address. Each has a name, its instructions in order, and by address. */
export function functionsOf(program) {
    const functions = [], sizes = sizesOf(program);
    let end = 0;
    for (const line of run('arm-none-eabi-objdump', ['-d', program]).split('\n')) {
        const head = /^([0-9a-f]+) <(.+)>:$/.exec(line);
        if (head) {
            const address = parseInt(head[1], 16);
            functions.push({ name: head[2], address, code: [], at: new Map() });
            end = address + (sizes.get(address) ?? Infinity);
            continue;
        }
        const i = instruction(line), f = functions.at(-1);
        if (!i || !f || i.address >= end) continue;
        f.code.push(i);
        f.at.set(i.address, i);
    }
    return functions;
}

/** The names of the functions that an archive defines; and those of them that other files can call. */
export function namesOf(archive) {
    const own = new Set(), exported = new Set();
    for (const line of run('arm-none-eabi-nm', [archive]).split('\n')) {
        const found = / ([Tt]) (.+)$/.exec(line);
        if (!found || found[2].startsWith('$')) continue;
        own.add(found[2]);
        if (found[1] === 'T') exported.add(found[2]);
    }
    return { own, exported };
}

/** Of each address: the functions of the module that it stands in, innermost first, each with the module's line; [] where none is known. */
export function originsOf(program, addresses) {
    const input = addresses.map((a) => `0x${a.toString(16)}`).join('\n');
    const origins = new Map();
    let frames, name;
    for (const line of run('arm-none-eabi-addr2line', ['-e', program, '-a', '-f', '-i'], input).split('\n')) {
        if (/^0x[0-9a-f]{8}$/.test(line)) origins.set(parseInt(line, 16), (frames = []));
        else if (name === undefined) name = line;
        else {
            const found = /robequarry\.ll:(\d+)/.exec(line);
            if (found) frames.push({ name, line: Number(found[1]) });
            name = undefined;
        }
    }
    return origins;
}
