// What host/firmware/vectors.mjs and tester/vectors.mjs share: a proved module in WebAssembly, whose path is the first word, memory to lend
// to its calls, the cases on standard input, and what is printed of them.
import fs from 'node:fs';

export const calls = new WebAssembly.Instance(new WebAssembly.Module(fs.readFileSync(process.argv[2])), {}).exports;
const input = fs.readFileSync(0);
const printed = [];
export const printText = text => printed.push(text);
export const print = (...fields) => printText(fields.join('\t') + '\n');
export const refused = refusal => print('no', refusal);

// ---- Memory: pointers have 32 bits, lengths 64, which JavaScript passes as a BigInt.
calls.memory.grow(32);
let free = calls.__heap_base.value;
export const lend = bytes => { const at = (free + 7) & ~7; free = at + bytes; return at; };
export const words = (at, count) => new Uint32Array(calls.memory.buffer, at, count);
export const bytesAt = (at, count) => new Uint8Array(calls.memory.buffer, at, count);

// ---- The input.
let at = 0;
export const bytes = many => { at += many; return input.subarray(at - many, at); };
export const letter = () => String.fromCharCode(...bytes(1));
export const nextIs = sign => String.fromCharCode(input[at]) === sign;
export const digits = many => parseInt(bytes(many).toString('latin1'), 16) >>> 0;
export const restOfLine = () => bytes(input.indexOf(10, at) - at).toString('latin1');
export const endOfLine = () => { if (input[at++] !== 10) throw new Error(`byte ${at - 1} of the input ends no line`); };

// Runs one case after the other, each of which takes its own lines, and prints.
export const run = oneCase => {
  while (at < input.length) oneCase();
  process.stdout.write(printed.join(''));
};
