// with_svc.mjs PROGRAM ARCHIVE: puts SVC in place of each IT instruction of the archive's functions in a linked program.
// The high byte of IT is 0xbf and that of SVC 0xdf; the low byte stays.
import { readFileSync, writeFileSync } from 'node:fs';
import { functionsOf, namesOf } from './listing.mjs';

const [program, archive] = process.argv.slice(2);
const file = readFileSync(program), { own } = namesOf(archive);

/** Where in the file the byte of an address is: in the segment of the program that has it. */
function offsetOf(address) {
    const first = file.readUInt32LE(28), count = file.readUInt16LE(44);
    for (let k = 0; k < count; k++) {
        const [type, offset, start, , size] = [0, 4, 8, 12, 16].map((field) => file.readUInt32LE(first + 32 * k + field));
        if (type === 1 && start <= address && address < start + size) return offset + address - start;
    }
    throw new Error(`no segment has the address ${address.toString(16)}`);
}

for (const f of functionsOf(program).filter((f) => own.has(f.name))) {
    for (const i of f.code.filter((i) => i.isIt)) {
        const high = offsetOf(i.address) + 1;
        if (file[high] !== 0xbf) throw new Error(`no IT at ${i.address.toString(16)}`);
        file[high] = 0xdf;
    }
}
writeFileSync(program, file);
