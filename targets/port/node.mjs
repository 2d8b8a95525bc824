// node.mjs ROBEQUARRY.wasm PROGRAM.wasm [NUMBER] [NUMBER]: runs a program of the corpus, a module of its own, over the library's module.
// The program lies in the library's memory, above it, and calls the library's functions without anything in between.
import { readFileSync, writeSync } from 'node:fs';

const [library, program, first = '0', second = '0'] = process.argv.slice(2);
const open = (path, imports) => new WebAssembly.Instance(new WebAssembly.Module(readFileSync(path)), imports).exports;
const calls = open(library);
// The program's memory starts at 1 MiB; it has less than 1 MiB.
calls.memory.grow(32);
const put = (at, count) => {
  const text = Buffer.from(calls.memory.buffer, at, count);
  for (let done = 0; done < count; ) done += writeSync(1, text, done);
};
// The library's stack is its first 64 KiB. It is painted, so that one can see how deep the calls went: it holds three times as much.
const STACK = 65536;
const BOUND = 20000;
new Uint8Array(calls.memory.buffer, 0, STACK).fill(0xa5);
process.exitCode = open(program, { env: { ...calls, port_put: put } }).start(Number(first), Number(second));
const deepest = new Uint8Array(calls.memory.buffer, 0, STACK).findIndex((byte) => byte !== 0xa5);
const used = deepest < 0 ? 0 : STACK - deepest;
if (used > BOUND) process.exitCode = 1;
if (used > BOUND || process.env.SHOW_STACK) console.error(`the library's stack in WebAssembly: ${used} bytes, of at most ${BOUND}`);
