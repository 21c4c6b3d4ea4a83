// node vectors.mjs MODULE SUBJECT: runs the cases of tools/SUBJECT_vectors.py from standard input by the proved module in WebAssembly and
// prints what came out, as host/vectors.c does by an archive. The subjects are catalogue, dash, routes, spread, book,
// writer, frames, packing, faults, power, sleep and record; for catalogue the input is signal numbers and raw counts, one pair a line.
import { bytes, bytesAt, calls, digits, endOfLine, lend, letter, nextIs, print, printText, refused, restOfLine, run, words } from './module_cases.mjs';

const subject = process.argv[3];

// ---- The header's numbers.
const BOOK_WORDS = 771, FROM = 643, MOST_ROUTES = 64, FAULT_WORDS = 7, POWER_WORDS = 8, POWER_START = 0, FRAME_BYTES = 8;
const CLOSED_CHAIN = 10, DOUBLE_CHAIN = 11, FILLING = 42;
const CLASSES = ['value', 'invalid', 'absent', 'error', 'reserved', 'outside'];
const PLACES_IN_BOOK = { M: 0, S: 1, R: 2, I: 3, E: 67, N: 131, T: 387, F: FROM, G: 707 };
const busOf = place => place >>> 29, identifierOf = place => place & 0x1FFFFFFF;

// ---- What is lent.
const book = lend(4 * BOOK_WORDS), text = lend(65536), line = lend(4), count = lend(4), number = lend(8), list = lend(1024), more = lend(1024),
  small = lend(256), readings = lend(2048);

const readText = given => {
  bytesAt(text, given.length).set(given);
  return calls.pc_book_read(text, BigInt(given.length), book, line);
};
const readBook = () => {
  const length = digits(8);
  endOfLine();
  const refusal = readText(bytes(length));
  endOfLine();
  return refusal;
};

const printSpread = (bus, identifier, room, word) => {
  const refusal = calls.pc_spread(book, bus, identifier, list, BigInt(room), count);
  if (refusal) return refused(refusal);
  const many = words(count, 1)[0];
  print(word, many, ...Array.from(words(list, many), place => place.toString(16).toUpperCase().padStart(8, '0')));
};

const cases = {
  catalogue() {
    const [signal, raw] = restOfLine().split('\t').map(Number);
    endOfLine();
    const refusal = calls.pc_class(signal, raw, count, number);
    const kind = CLASSES[words(count, 1)[0]];
    if (refusal) print(signal, raw, 'no', refusal);
    else print(signal, raw, kind, kind === 'value' ? new BigInt64Array(calls.memory.buffer, number, 1)[0] : raw);
  },
  dash() {
    const signal = digits(8), raw = digits(8);
    endOfLine();
    const refusal = calls.pc_dash(signal, raw, count, number);
    if (refusal) return refused(refusal);
    const kind = CLASSES[words(count, 1)[0]], [bits] = new BigUint64Array(calls.memory.buffer, number, 1);
    print(...kind === 'value' ? [kind, bits.toString(16).toUpperCase().padStart(16, '0')] : [kind]);
  },
  routes() {
    const many = digits(2), lines = [];
    const place = key => [busOf(key), identifierOf(key).toString(16).toUpperCase().padStart(8, '0')];
    for (let i = 0; i < many; i++) lines.push(['R', ...place(digits(8)), ...place(digits(8))].join('\t') + '\n');
    const from = digits(8);
    endOfLine();
    const refusal = readText(Buffer.from(lines.join(''), 'latin1'));
    if (refusal === CLOSED_CHAIN) print('loop', words(line, 1)[0] - 1);
    else if (refusal === DOUBLE_CHAIN) print('doubling', words(line, 1)[0] - 1);
    else if (refusal) refused(refusal);
    else printSpread(busOf(from), identifierOf(from), MOST_ROUTES, 'sound');
  },
  book() {
    const refusal = readBook();
    if (refusal) print('no', refusal, words(line, 1)[0]);
    else print('ok', ...words(book, 3));
  },
  faults() {
    const many = digits(2);
    for (let i = 0; i < many; i++) words(list, 256)[i] = digits(8);
    endOfLine();
    const refusal = calls.pc_fault_sum(list, BigInt(many), small);
    if (refusal) refused(refusal);
    else print('sum', ...words(small, FAULT_WORDS));
  },
  power() {
    words(count, 1)[0] = nextIs('N') ? (letter(), POWER_START) : digits(1);
    for (let i = 0; i < POWER_WORDS; i++) words(small, POWER_WORDS)[i] = digits(8);
    const share = nextIs('-') ? (bytes(8), null) : digits(8);
    endOfLine();
    const refusal = share === null ? calls.pc_power_step(count, small) : calls.pc_power_step_by(count, small, share);
    if (refusal) refused(refusal);
    else print(words(count, 1)[0]);
  },
  sleep() {
    const kind = letter(), time = digits(8);
    endOfLine();
    if (kind === 'N') return calls.pc_sleep_start(line, count, time);
    const refusal = calls.pc_sleep_watch(line, count, time, kind === 'W' ? 1 : 0);
    if (refusal) refused(refusal);
    else print(words(count, 1)[0] ? 'asleep' : 'awake', words(line, 1)[0]);
  },
};

// ---- The streams that lend a book, by the first byte of a line.
const lentBook = {
  B: readBook,
  F() {
    const identifier = digits(8), room = digits(2), length = digits(2);
    for (let i = 0; i < length; i++) bytesAt(small, 256)[i] = digits(2);
    endOfLine();
    const refusal = calls.pc_frame_read(book, identifier, small, BigInt(length), list, BigInt(room), more, BigInt(room), readings, BigInt(room), count);
    if (refusal) return refused(refusal);
    const many = words(count, 1)[0], thousandths = new BigInt64Array(calls.memory.buffer, readings, many);
    print('read', many, ...Array.from({ length: many }, (_, i) => [words(list, many)[i], CLASSES[bytesAt(more, many)[i]], thousandths[i]].join('\t')));
  },
  P() {
    const identifier = digits(8), length = digits(2), many = digits(2);
    for (let i = 0; i < many; i++) words(list, 256)[i] = digits(8);
    endOfLine();
    const refusal = calls.pc_frame_pack(book, identifier, list, BigInt(many), small, BigInt(length));
    if (refusal) refused(refusal);
    else print('packed', Buffer.from(bytesAt(small, FRAME_BYTES)).toString('hex').toUpperCase());
  },
  S() {
    const bus = digits(8), identifier = digits(8), room = digits(2);
    endOfLine();
    printSpread(bus, identifier, room, 'spread');
  },
  W() {
    const room = digits(8);
    endOfLine();
    bytesAt(text, room).fill(FILLING);
    const refusal = calls.pc_book_write(book, text, BigInt(room), count);
    const many = refusal ? 0 : words(count, 1)[0], stayed = bytesAt(text + many, room - many).filter(byte => byte === FILLING).length;
    print(...refusal ? ['no', refusal, stayed] : ['text', many, stayed]);
    printText(Buffer.from(bytesAt(text, many)).toString('latin1'));
  },
  X() {
    const column = letter(), index = digits(2), value = digits(8);
    endOfLine();
    words(book, BOOK_WORDS)[PLACES_IN_BOOK[column] + index] = value;
  },
};
cases.spread = cases.writer = cases.frames = cases.packing = cases.record = () => lentBook[letter()]();

if (!(subject in cases)) throw new Error(`there is no subject '${subject}'`);
run(cases[subject]);
