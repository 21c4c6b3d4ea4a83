// node vectors.mjs MODULE: runs the cases of tools/charging_vectors.py from standard input by the proved module in WebAssembly and prints
// what came out, as tester/vectors.c does by an archive.
import { calls, digits, endOfLine, lend, letter, nextIs, print, refused, run, words } from '../host/firmware/module_cases.mjs';

const CHARGE_WORDS = 11, CHARGE_START = 0;
const state = lend(4), seen = lend(4 * CHARGE_WORDS);

run(() => {
  words(state, 1)[0] = nextIs('N') ? (letter(), CHARGE_START) : digits(1);
  for (let i = 0; i < CHARGE_WORDS; i++) words(seen, CHARGE_WORDS)[i] = digits(8);
  endOfLine();
  const refusal = calls.pct_charge_step(state, seen);
  if (refusal) refused(refusal);
  else print(words(state, 1)[0]);
});
