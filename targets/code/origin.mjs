// What a line of the module is in the library's source: which function, and which condition of it.
import { existsSync, readFileSync } from 'node:fs';

const root = new URL('../../', import.meta.url).pathname;

/** A text without the closures in it: each is a function of its own. */
function withoutClosures(text) {
    let out = '', from = 0;
    for (const found of text.matchAll(/[(,]\s*(?:move )?\|[^|\n]*\| /g)) {
        if (found.index < from) continue;
        out += text.slice(from, found.index + 1);
        let depth = 0;
        for (from = found.index + found[0].length; from < text.length; from++) {
            if ('([{'.includes(text[from])) depth++;
            if (')]}'.includes(text[from]) && depth-- === 0) break;
            if (text[from] === ',' && depth === 0) break;
        }
    }
    return out + text.slice(from);
}

/** The part of a file that has the methods of a type, or those of a trait for it: `T`, and `T` with the trait's name after it. */
function implOf(text, type) {
    for (const found of text.matchAll(/\nimpl(?:<[^>]*>)? (?:(.+) for )?([^\n{]+) \{\n/g)) {
        const name = (found[2] + (found[1] ?? '')).replace(/<'\w+>/g, '').replace(/\W/g, '');
        if (name === type) return text.slice(found.index, text.indexOf('\n}', found.index) + 2);
    }
    return '';
}

/** The text of a function's body, without comments and closures, from its source file. */
function bodyOf(name) {
    const parts = name.split('::'), last = parts.pop();
    const isC = parts.length === 0, type = /^[A-Z]/.test(parts.at(-1) ?? '') ? parts.pop() : undefined;
    const file = isC ? 'crates/robequarry/src/lib.rt' : `crates/${parts[0]}/src/${parts.slice(1).join('/') || 'lib'}.rt`;
    if (!existsSync(root + file)) return '';
    const whole = readFileSync(root + file, 'utf8').replace(/\/\/.*/g, ''), text = type ? implOf(whole, type) : whole;
    const head = new RegExp(`(?:^|\\n)( *)[^\\n]*\\bfn ${last}\\b`).exec(text);
    if (!head) return '';
    const indent = head[1], rest = text.slice(head.index + 1), open = rest.search(new RegExp(`(\\n${indent}|\\) |> |[a-z0-9] )\\{\\n`));
    return withoutClosures(rest.slice(open, rest.indexOf(`\n${indent}}`, open)));
}

const plain = (text) => text.replace(/\s+/g, ' ').trim();

/** Where the block after a condition opens: the first `{` outside of brackets. */
function blockAfter(text, from) {
    let depth = 0;
    for (let k = from; k < text.length; k++) {
        if ('(['.includes(text[k])) depth++;
        if (')]'.includes(text[k])) depth--;
        if (text[k] === '{' && depth === 0) return k;
    }
    return text.length;
}

/**
 * The conditions of a function in the order of its branches: of `if` and `while` each part between `&&` and `||`; elsewhere what stands
 * before such a sign; and a `for` over a slice or a range. And the subjects of its matches, with what is asked by `?` and by `let else`, and
 * the other `for` loops, which ask an iterator. `heads` says of each loop of the module whether a switch ends its head.
 */
function conditionsOf(name, heads) {
    const body = bodyOf(name), conditions = [], matches = [];
    const token = /\b(?:if let|while let|while|if|match|for)\b|&&|\|\||\?(?=[;,.)\s])|\belse \{/g;
    let loops = 0;
    for (let found; (found = token.exec(body)); ) {
        const from = token.lastIndex, word = found[0];
        const start = Math.max(...[';', '{', '}'].map((sign) => body.lastIndexOf(sign, found.index)));
        if (word === '&&' || word === '||') {
            conditions.push(plain(body.slice(start + 1, from - 2)));
            continue;
        }
        if (word === '?') {
            matches.push(plain(body.slice(start + 1, from)));
            continue;
        }
        if (word === 'else {') {
            const text = plain(body.slice(start + 1, found.index));
            if (text.startsWith('let ')) matches.push(text);
            continue;
        }
        const end = blockAfter(body, from), text = body.slice(from, end);
        if (word === 'if' || word === 'while') for (const part of text.split(/&&|\|\|/)) conditions.push(plain(part));
        else if (word === 'for') (heads[loops] ? matches : conditions).push(plain(`for ${text}`));
        else matches.push(plain(text));
        if (word === 'for' || word.startsWith('while')) loops++;
        token.lastIndex = end;
    }
    return { conditions, matches };
}

const crates = readFileSync(`${root}crates.txt`, 'utf8').split('\n').map((line) => /^\w+/.exec(line)?.[0]);
const isOwn = (name) => !name.includes('::') || crates.includes(name.split('::')[0]);

/** A name without the types that a general function was made for. */
const general = (name) => name.replace(/::<.*/, '');

/** The function of ours for a name of the module: a closure is a part of the function that it stands in. */
const ownName = (name) => general(name).replace(/::fn::(\w+)::.*/, '::$1');

/** The functions of a module: the lines of each, what each calls and where, and whether it has a loop. */
function functionsOf(lines) {
    const functions = new Map();
    let f;
    lines.forEach((text, index) => {
        const line = index + 1, head = /^define .*?@("?)([^"(]+)\1\(/.exec(text);
        if (head) functions.set(head[2], (f = { name: head[2], line, calls: [], callers: [], hasLoop: false }));
        const call = /call .*?@("?)([^"(]+)\1\(/.exec(text);
        if (call) f?.calls.push({ name: call[2], line });
        if (/^loop\.\d+:/.test(text)) f.hasLoop = true;
    });
    for (const f of functions.values()) {
        for (const { name, line } of f.calls) functions.get(name)?.callers.push({ f, line });
    }
    return functions;
}

/** Reads a module, and gives of a line what it decides; and the name of the loop that it ends or keeps going. */
export function readModule(file) {
    const lines = readFileSync(file, 'utf8').split('\n'), what = new Map(), whiles = new Map(), functions = functionsOf(lines);
    let f, inHead = false;
    const close = () => {
        if (!f) return;
        const { conditions, matches } = conditionsOf(f.name, f.heads);
        const named = (list, kind, texts) =>
            list.forEach((line, k) => what.set(line, list.length === texts.length ? texts[k] : `${kind} ${k + 1} of ${list.length}`));
        named(f.ifs, 'condition', conditions);
        named(f.switches, 'match', matches.map((text) => (/^for |\?$|^let /.test(text) ? text : `match ${text}`)));
    };
    // The library functions that a function of the toolchain's library runs for it have loops of their own: they count as the caller's.
    const loopsBelow = (name, seen = new Set()) => {
        const g = functions.get(name);
        if (!g || isOwn(name) || seen.has(name)) return false;
        seen.add(name);
        return g.hasLoop || g.calls.some((call) => loopsBelow(call.name, seen));
    };
    lines.forEach((text, index) => {
        const line = index + 1, head = /^define .*?@("?)([^"(]+)\1\(/.exec(text);
        if (head) {
            close();
            f = { name: head[2], ifs: [], switches: [], heads: [] };
        }
        if (/^loop\.\d+:/.test(text)) inHead = true;
        if (/^  br i1 /.test(text)) {
            if (inHead) {
                whiles.set(line, ownName(f.name));
                f.heads.push(false);
            } else if (/%filled\./.test(text)) whiles.set(line, `${ownName(f.name)} fill`);
            inHead = false;
        }
        if (/^  \]$/.test(text) && inHead) {
            whiles.set(line, ownName(f.name));
            f.heads.push(true);
            inHead = false;
        }
        const call = /call .*?@("?)([^"(]+)\1\(/.exec(text);
        if (call && isOwn(f.name) && loopsBelow(call[2])) whiles.set(line, ownName(f.name));
        if (/^  br i1 .*%then\./.test(text)) f.ifs.push(line);
        else if (/^  br i1 .*%filled\./.test(text)) what.set(line, 'an array is filled');
        else if (/^  br i1 .*%trap\./.test(text)) what.set(line, 'a divisor is 0');
        else if (/^  \]$/.test(text)) f.switches.push(line);
    });
    close();
    const looped = new Set(whiles.values());
    /** The one place in our code that a function of the toolchain's library runs for, or undefined. */
    const placeOf = (name) => {
        const g = functions.get(name), places = new Map();
        for (const { f, line } of g?.callers ?? []) {
            const place = isOwn(f.name) ? { name: ownName(f.name), line } : placeOf(f.name);
            if (!place) return undefined;
            places.set(place.name, place);
        }
        return places.size === 1 ? [...places.values()][0] : undefined;
    };
    /** Functions of the module that an instruction stands in, innermost first: ours alone. What the toolchain's library does is done there. */
    const ownFrames = (frames) => {
        const own = frames.filter(({ name }) => isOwn(name)).map(({ name, line }) => ({ name: ownName(name), line }));
        if (own.length > 0 || frames.length === 0) return own;
        return [placeOf(frames.at(-1).name) ?? { name: general(frames[0].name), line: frames[0].line }];
    };
    return {
        whatOf: (line) => what.get(line) ?? describe(lines[line - 1] ?? ''),
        loopOf: (line) => whiles.get(line),
        hasLoop: (name) => looped.has(name),
        ownFrames,
    };
}

/** A line that is no branch: its operation, or which function it calls. */
function describe(text) {
    const call = /call .*?@"?([^"(]+)"?\(/.exec(text);
    if (call) return `the result of ${general(call[1])}`;
    return text.trim().replace(/^%\w+ = /, '').split(' ').slice(0, 2).join(' ') || 'no line';
}
