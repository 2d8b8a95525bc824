// The header's table of stack: "name, name   8,700   8,600". The first number is a Cortex-M's, the second that of x86-64.
import { readFileSync } from 'node:fs';

// The two functions that stand in the table by the name of the call whose first half they are.
const halves = { rq_prepare: 'rq_close', rq_prepare_image: 'rq_restore' };

/** The function that tells how many bytes of stack the header states for a function of the archive; `column` is 0 or 1. */
export function readStated(column) {
    const stated = new Map();
    for (const line of readFileSync(new URL('../../include/robequarry.h', import.meta.url), 'utf8').split('\n')) {
        const found = /^ \*     ([a-z].*?) +([0-9,]+) +([0-9,]+)$/.exec(line);
        if (found) for (const name of found[1].split(', ')) stated.set(name, Number(found[2 + column].replaceAll(',', '')));
    }
    return (name) => {
        const plain = name.replace(/_(parts|numbers)$/, '');
        if (plain === 'rq_call') return stated.get('a close by rq_call');
        return stated.get(halves[plain] ?? plain) ?? stated.get('every other function');
    };
}
