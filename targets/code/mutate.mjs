// mutate.mjs MODULE.ll SEED COUNT OUT: draws COUNT alterations of the module from a seed, and writes the module with each to OUT/K.ll.
// OUT/list has a line for each: its number K, the line of the module, the function of the source, what is done, the text before and after.
import { mkdirSync, readFileSync, writeFileSync } from 'node:fs';

const [file, seed, count, out] = process.argv.slice(2);
const text = readFileSync(file, 'utf8'), lines = text.split('\n');

/** Numbers from a seed (splitmix32). */
let state = Number(seed) >>> 0;
const below = (n) => {
    state = (state + 0x9e3779b9) >>> 0;
    let x = state;
    x = Math.imul(x ^ (x >>> 16), 0x21f0aaad);
    x = Math.imul(x ^ (x >>> 15), 0x735a2d97);
    return ((x ^ (x >>> 15)) >>> 0) % n;
};

const opposite = { eq: 'ne', ne: 'eq', ult: 'uge', uge: 'ult', ule: 'ugt', ugt: 'ule', slt: 'sge', sge: 'slt', sle: 'sgt', sgt: 'sle' };
const next = { ult: 'ule', ule: 'ult', ugt: 'uge', uge: 'ugt', slt: 'sle', sle: 'slt', sgt: 'sge', sge: 'sgt' };
const moved = (number) => String(Number(number) + (below(2) === 0 || number === '0' ? 1 : -1));

/** The kinds of alteration: each has a pattern of a line, and what becomes of such a line. */
const kinds = [
    ['a predicate is turned', /^(  %\w+ = icmp )(\w+)( .*)$/, (m) => m[1] + opposite[m[2]] + m[3]],
    ['a predicate takes the limit in or leaves it out', /^(  %\w+ = icmp )(u[lg][te]|s[lg][te])( .*)$/, (m) => m[1] + next[m[2]] + m[3]],
    ['a float predicate is moved', /^(  %\w+ = fcmp o[lg])([te])( .*)$/, (m) => m[1] + (m[2] === 't' ? 'e' : 't') + m[3]],
    ['a constant is moved by one', /^(  %\w+ = (?:add|sub|mul|udiv|urem|icmp|and|shl|lshr)\b.*, )(\d+)$/, (m) => m[1] + moved(m[2])],
    ['a stored constant is moved by one', /^(  store i(?:16|32|64) )(\d+)(, .*)$/, (m) => m[1] + moved(m[2]) + m[3]],
    ['operands are exchanged', /^(  %\w+ = (?:sub|fsub|udiv|urem|icmp u?s?[lg][te]|fcmp o[lg][te])[a-z ]* (?:i\d+|float) )(%\w+), (%\w+)$/,
        (m) => `${m[1]}${m[3]}, ${m[2]}`],
    ['an operation is another one', /^(  %\w+ = )(add|sub|and|or|fadd|fsub)( (?:nuw |nsw )*(?:i\d+|float) .*)$/,
        (m) => m[1] + { add: 'sub', sub: 'add', and: 'or', or: 'and', fadd: 'fsub', fsub: 'fadd' }[m[2]] + m[3].replace(/ (nuw|nsw)/g, '')],
    ['a store is left out', /^  store (?!i8 %r\d+, ptr %r\d+, align 1$).*$/, () => ''],
];

const candidates = [];
let name = '';
lines.forEach((line, index) => {
    const head = /^define .*?@("?)([^"(]+)\1\(/.exec(line);
    if (head) name = head[2];
    kinds.forEach(([, pattern], kind) => {
        if (pattern.test(line)) candidates.push({ index, kind, name });
    });
});

// The kinds take turns, so that rare ones are drawn as often as common ones.
mkdirSync(out, { recursive: true });
const list = [], drawn = new Set();
for (let k = 0; list.length < Number(count) && k < 100 * Number(count); k++) {
    const those = candidates.filter(({ kind }) => kind === k % kinds.length);
    if (those.length === 0) continue;
    const { index, kind, name: inside } = those[below(those.length)];
    if (drawn.has(`${index} ${kind}`)) continue;
    drawn.add(`${index} ${kind}`);
    const [what, pattern, change] = kinds[kind], altered = change(pattern.exec(lines[index]));
    const number = list.length + 1;
    writeFileSync(`${out}/${number}.ll`, [...lines.slice(0, index), altered, ...lines.slice(index + 1)].join('\n'));
    list.push([number, index + 1, inside, what, lines[index].trim(), altered.trim()].join('\t'));
}
writeFileSync(`${out}/list`, list.join('\n') + '\n');
