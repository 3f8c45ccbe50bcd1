// What a lesson's program must do: runs of key files, each with the bytes that the keyboard must send in it. A trial has
// `says`, where it is; `keys`, its key file; `bytes`; `any`, if their order is free; `calm`, if the keyboard alone begins to pull
// the wires; `fill`, what memory holds at power-on; `takes`, if the keyboard takes the PC's bytes; `items`, what the PC reads in
// place of what comes of the bytes (or of `read`), or `likeModel`, if it is what the model says; `reads`, how a log is read (logs.js).
import { hex } from '../dom.js';
import { asTheyAre, withLastLights, withLights, withoutRepeats } from './logs.js';
import { CYCLES_OF_A_MS } from '../times.js';

const HELD_MS = 50, REST = 40, HELD_LONG = 900, SHORT = 15; // ms
const FIRST_MS = 10, BETWEEN_WRITES = 20;
const WRITES_AGAIN = 40, UNMASKED = 16000; // UNMASKED is a stamp
const FALLS_ASKED_AFTER = 23; // eleven of FF, eleven of FA, and one by which the controller asks to send FF; it asks again while it holds the clock
const MOST_AT_ONCE = 4; // edges, of which five take at least 5.6 ms
const STRAY_SEED = 48271, STRAY_MODULUS = 2147483647; // of a pseudo-random sequence, which is the same each time
const TRIAL_FILLS = ['00', 'A5', 'FF', '5A'];

const stampOfLine = ({ ms, stamp }) => stamp ?? ms * CYCLES_OF_A_MS;

/** A key file of lines { ms or stamp, words }, which ends some time after the last of them. */
export function keyFileOf(lines, rest = REST) {
  const inOrder = [...lines].sort((a, b) => stampOfLine(a) - stampOfLine(b));
  const end = stampOfLine(inOrder.at(-1)) + rest * CYCLES_OF_A_MS;
  return [...inOrder.map(line => `${stampOfLine(line)} ${line.words}`), `${end} end`, ''].join('\n');
}

const press = (key, ms) => ({ ms, words: `press ${key}` });
const release = (key, ms) => ({ ms, words: `release ${key}` });
const stroke = (key, ms, held = HELD_MS) => [press(key, ms), release(key, ms + held)];

const listed = names => (names.length < 2 ? names.join() : `${names.slice(0, -1).join(', ')} and ${names.at(-1)}`);

/** Numbers from 0 up to a bound, the same ones each time. */
function* stray(seed) {
  for (let now = seed; ; ) {
    now = now * STRAY_SEED % STRAY_MODULUS;
    yield bound => now % bound;
  }
}

// Each key alone, and each more than once.
function aloneTrials(names, codes) {
  const thrice = names.map((name, n) => ({
    says: `key ${name} goes down and up three times`, bytes: [codes[n], codes[n], codes[n]], calm: true,
    keys: keyFileOf([0, 1, 2].flatMap(time => stroke(name, FIRST_MS + time * (SHORT + 2 * REST), SHORT + REST))),
  }));
  const held = names.map((name, n) => ({ says: `key ${name} is held for ${HELD_LONG} ms`, keys: keyFileOf(stroke(name, FIRST_MS, HELD_LONG)), bytes: [codes[n]], calm: true }));
  return [...eachKey(names, codes), ...thrice, ...held];
}

// Each set of keys that go down at once, and are let go one after the other.
function chordTrials(names, codes) {
  return Array.from({ length: 1 << names.length }, (_, set) => names.map((_, n) => n).filter(n => set >> n & 1)).filter(set => set.length > 1 && set.length <= MOST_AT_ONCE).map((set, at) => ({
    says: `the keys ${listed(set.map(n => names[n]))} go down at once`, bytes: set.map(n => codes[n]), any: true, calm: true, fill: TRIAL_FILLS[at % TRIAL_FILLS.length],
    keys: keyFileOf([...set.map(n => press(names[n], FIRST_MS)), ...set.map((n, place) => release(names[n], FIRST_MS + HELD_MS + place * SHORT))]),
  }));
}

// While one key is held, another goes down and up twice; and three keys roll over.
function rolloverTrials(names, codes) {
  const pairs = names.flatMap((_, n) => names.map((_, m) => [n, m])).filter(([n, m]) => n !== m).map(([n, m]) => ({
    says: `key ${names[m]} goes down twice while ${names[n]} is held`, bytes: [codes[n], codes[m], codes[m]], calm: true,
    keys: keyFileOf([press(names[n], FIRST_MS), ...stroke(names[m], 50, 30), ...stroke(names[m], 120, 30), release(names[n], 200)]),
  }));
  const [a, b, c] = names, [first, second, third] = codes;
  return [...pairs, {
    says: `${a}, ${b} and ${c} go down before the key before is up`, bytes: [first, second, third], calm: true,
    keys: keyFileOf([press(a, 10), press(b, 40), release(a, 60), press(c, 80), release(b, 100), release(c, 130)]),
  }];
}

// Many strokes at irregular times.
function manyTrials(names, codes) {
  return [11, 23, 47].map((seed, at) => {
    const next = stray(seed), number = bound => next.next().value(bound), lines = [], bytes = [];
    for (let ms = FIRST_MS, count = 0; count < 40; count++) {
      const n = number(names.length), held = 10 + number(60);
      lines.push(...stroke(names[n], ms, held));
      bytes.push(codes[n]);
      ms += held + 10 + number(30);
    }
    return { says: 'forty strokes one after the other', keys: keyFileOf(lines), bytes, calm: true, fill: TRIAL_FILLS[at] };
  });
}

// A key that goes down in each cycle of the program's loop.
function phaseTrials(names, codes) {
  return Array.from({ length: 48 }, (_, n) => {
    const key = n % names.length, stamp = 4000 + n;
    return {
      says: `key ${names[key]} goes down at cycle ${stamp}`, bytes: [codes[key]], calm: true,
      keys: keyFileOf([{ stamp, words: `press ${names[key]}` }, { stamp: stamp + 8000, words: `release ${names[key]}` }], SHORT),
    };
  });
}

// The PC doesn't read, or has switched the keyboard off: the byte waits.
function waitTrials(names, codes) {
  return names.flatMap((name, n) => {
    const m = (n + 1) % names.length, other = names[m];
    return [{
      says: `key ${name} goes down while INT 09h is masked`, bytes: [codes[n]], calm: true,
      keys: keyFileOf([{ ms: 5, words: 'mask' }, ...stroke(name, FIRST_MS), { ms: 100, words: 'unmask' }]),
    }, {
      says: `the keys ${name} and ${other} go down while INT 09h is masked`, bytes: [codes[n], codes[m]], calm: true,
      keys: keyFileOf([{ ms: 5, words: 'mask' }, press(name, FIRST_MS), press(other, 30), { ms: 100, words: 'unmask' }, release(name, 150), release(other, 170)]),
    }, {
      says: `key ${name} goes down while the PC has switched the keyboard off`, bytes: [codes[n]],
      keys: keyFileOf([{ ms: 5, words: 'write64 AD' }, press(name, FIRST_MS), { ms: 100, words: 'write64 AE' }, release(name, 150)]),
    }];
  });
}

/** While the PC wants to send a byte, a keyboard that takes none sends none. */
export const silences = names => names.map(name => ({
  says: `key ${name} goes down after the PC has asked the keyboard to take a byte`, bytes: [], falls: 1,
  keys: keyFileOf([{ ms: 5, words: 'write60 EE' }, ...stroke(name, FIRST_MS)]),
}));

/** All that a keyboard must do whose keys each send a byte when they go down. */
export const makeTrials = (names, codes) => [aloneTrials, chordTrials, rolloverTrials, manyTrials, phaseTrials, waitTrials].flatMap(kind => kind(names, codes));

/** The PC writes at each time around a key's frame, which begins and ends at these stamps: the byte comes once. The last line
    of the key file has the time at which the keyboard is on again. */
export function brokenOff(name, code, [begin, end], apart) {
  const trials = [];
  for (let stamp = begin - 160; stamp <= end + 160; stamp += apart) {
    trials.push({
      says: `the PC writes to its keyboard controller at cycle ${stamp}, and the frame of key ${name} begins at ${begin}`, bytes: [code],
      keys: keyFileOf([{ ms: FIRST_MS, words: `press ${name}` }, { stamp, words: 'write64 AE' }, { ms: 60, words: `release ${name}` }]),
    });
  }
  return trials;
}

/** The same, where the PC switches the keyboard off, and later on. */
export function switchedOff(name, code, [begin, end], apart) {
  const trials = [];
  for (let stamp = begin - 160; stamp <= end + 160; stamp += apart) {
    trials.push({
      says: `the PC switches the keyboard off at cycle ${stamp} and on at 50 ms, and the frame of key ${name} begins at ${begin}`, bytes: [code],
      keys: keyFileOf([{ ms: FIRST_MS, words: `press ${name}` }, { stamp, words: 'write64 AD' }, { ms: 50, words: 'write64 AE' }, { ms: 60, words: `release ${name}` }]),
    });
  }
  return trials;
}

const F0 = 'F0';

/** The PC writes again and again, from the begin of a key's frame on, so that each try to send the byte is broken off. */
export const brokenOffAgain = (name, code, [begin]) => [{
  says: `the PC writes to its keyboard controller ${WRITES_AGAIN} times, and the frame of key ${name} begins at ${begin}`, bytes: [code],
  keys: keyFileOf([{ ms: FIRST_MS, words: `press ${name}` }, ...Array.from({ length: WRITES_AGAIN }, (_, n) => ({ stamp: begin + 40 + 150 * n, words: 'write64 AE' })), { ms: 60, words: `release ${name}` }]),
}];

/** What a keyboard sends is broken off, or has to wait: `lines` are what makes it send these bytes, of which one has this frame. */
export function inFrame(lines, bytes, [begin, end]) {
  const trials = [], trial = (what, writes) => trials.push({ says: `the PC ${what}, and a frame begins at ${begin}`, bytes, takes: true, keys: keyFileOf([...lines, ...writes]) });
  for (let stamp = begin - 150; stamp <= end + 30; stamp += 20) {
    trial(`writes to its keyboard controller at cycle ${stamp}`, [{ stamp, words: 'write64 AE' }]);
    trial(`switches the keyboard off at cycle ${stamp} and on later`, [{ stamp, words: 'write64 AD' }, { stamp: end + 400 + stamp % 70, words: 'write64 AE' }]);
  }
  return trials;
}

const askedIn = (lines, stamp, more) => [{ says: `the PC asks the keyboard to take a byte at cycle ${stamp}`, keys: keyFileOf([...lines, { stamp, words: 'write60 EE' }]), ...more }];

/** The PC asks the keyboard to take a byte before its first frame: it sends none. */
export const askedBefore = ([begin]) => askedIn([], begin - 400, { bytes: [], falls: 1 });

/** The PC asks it right after the first frame of its answer to FF, FA: it doesn't send AA. */
export const askedAfter = (lines, [, end]) => askedIn(lines, end + 20, { bytes: ['FA'], falls: FALLS_ASKED_AFTER });

/** Gives trials of keys that send when they go down the bytes that they send when they go up too. */
export const withBreaks = (trials, names, codes) => trials.map(trial => {
  const bytes = trial.keys.split('\n').map(line => line.split(' ')).filter(([, word]) => word === 'press' || word === 'release')
    .flatMap(([, word, key]) => [...(word === 'release' ? [F0] : []), codes[names.indexOf(key)]]);
  return { ...trial, bytes };
});

/** Strokes of these keys, each alone, two that roll over, and many one after the other. */
export const strokesOf = (names, codes) => [aloneTrials, rolloverTrials, manyTrials].flatMap(kind => kind(names, codes));

/** A run without a key: what is sent after power-on, whatever memory holds. */
export const atPowerOn = (bytes, keys = '20ms end\n') => TRIAL_FILLS.map(fill => ({ says: `power-on, with ${fill} in memory`, keys, bytes, calm: true, fill }));

/** What the PC writes at port 60h, each some time after the one before, and what the keyboard answers. */
export function answers(pairs) {
  const each = pairs.map(([asked, bytes]) => ({ says: `the PC writes ${asked}`, keys: keyFileOf([{ ms: FIRST_MS, words: `write60 ${asked}` }]), bytes, takes: true }));
  const all = { says: 'the PC writes one after the other', keys: keyFileOf(pairs.map(([asked], n) => ({ ms: FIRST_MS + 20 * n, words: `write60 ${asked}` }))), bytes: pairs.flatMap(([, bytes]) => bytes), takes: true };
  return [...each, all];
}

/** What the PC writes, one byte after the other: each with the keyboard's answers, and the lights from then on. */
export const conversations = lists => lists.map(list => {
  let lights = '0';
  const items = list.flatMap(([, answered, lit]) => {
    lights = lit ?? lights;
    return answered.map(byte => `port ${byte}, lights ${lights}`);
  });
  return {
    says: `the PC writes ${listed(list.map(([byte]) => byte))}`, takes: true, reads: withLights, items: [...items, `the end, lights ${lights}`], bytes: list.flatMap(([, answered]) => answered),
    keys: keyFileOf(list.map(([byte], n) => ({ ms: FIRST_MS + BETWEEN_WRITES * n, words: `write60 ${byte}` }))),
  };
});

// The bytes that differ from this one in a bit.
const neighboursOf = byte => Array.from({ length: 8 }, (_, bit) => hex(Number.parseInt(byte, 16) ^ 1 << bit));

/** The bytes that are like those that a keyboard has answers of its own for, and FE: each is answered with FA, and EE after it with EE. */
export const unknownBytes = named => conversations([[...new Set(['FE', ...named.flatMap(neighboursOf)])].filter(byte => !named.includes(byte)).flatMap(byte => [[byte, ['FA']], ['EE', ['EE']]])]);

/** FF is answered while the PC doesn't read: AA waits until it has read FA. */
export const answersWait = Array.from({ length: 18 }, (_, n) => ({
  says: `the PC writes FF while INT 09h is masked, up to cycle ${UNMASKED + 5 * n}`, bytes: ['FA', 'AA'], takes: true,
  keys: keyFileOf([{ ms: 5, words: 'mask' }, { ms: FIRST_MS, words: 'write60 FF' }, { stamp: UNMASKED + 5 * n, words: 'unmask' }]),
}));

/** Conversations that set the lights to each value, and then to another. */
export const lightings = conversations([
  ...Array.from({ length: 8 }, (_, to) => [['ED', ['FA']], [`0${to}`, ['FA'], String(to)], ['EE', ['EE']], ['ED', ['FA']], [`0${7 - to}`, ['FA'], String(7 - to)]]),
  [['ED', ['FA']], ['7A', ['FA'], '2'], ['05', ['FA']], ['F4', ['FA']], ['ED', ['FA']], ['07', ['FA'], '7'], ['EE', ['EE']]],
]);

/** Noise turns each bit of the first byte that a keyboard sends in a trial, so that the controller asks for it again. */
export const noisy = trial => Array.from({ length: 9 }, (_, n) => ({
  ...trial, says: `${trial.says}, and noise turns ${n === 8 ? 'the parity bit' : `bit ${n + 1}`} of the keyboard's next byte`, calm: false, takes: true,
  keys: `${(FIRST_MS - 2) * CYCLES_OF_A_MS} flip ${n + 1}\n${trial.keys}`, read: trial.bytes, bytes: [trial.bytes[0], ...trial.bytes],
}));

/** Five strokes while the PC doesn't read: INT 09h is masked, or the PC has switched the keyboard off within the first byte. What
    waits is more each time than what waited before, so that a queue comes to its end and begins anew. */
export function waitingTrials(names, codes) {
  return names.map((_, from) => {
    const lines = [], bytes = [];
    for (let round = 0; round < 4; round++) {
      const begin = FIRST_MS + 400 * round, at = n => (from + round + n) % names.length, strokes = 2 + round;
      lines.push({ ms: begin - 5, words: 'mask' }, { ms: begin + 300, words: 'unmask' });
      for (let n = 0; n < strokes; n++) lines.push(...stroke(names[at(n)], begin + n * 50, 20));
      bytes.push(...Array.from({ length: strokes }, (__, n) => codes[at(n)]));
    }
    return { says: `strokes while INT 09h is masked, from key ${names[from]} on`, keys: keyFileOf(lines, 3 * REST), bytes, calm: true };
  });
}

const TYPED_FULL = 5, HELD_FULL = 2; // strokes and then keys that go down: one byte is in the controller, and sixteen wait

// Five strokes of a key while INT 09h is masked, and then so many keys that go down.
const fullLines = (names, more) => [
  { ms: 5, words: 'mask' }, ...Array.from({ length: TYPED_FULL }, (_, n) => stroke(names[0], FIRST_MS + 50 * n, 20)).flat(), { ms: 460, words: 'unmask' },
  ...names.slice(0, more).flatMap((name, n) => [press(name, 270 + 40 * n), release(name, 600 + 40 * n)]),
];

/** Sixteen bytes wait while INT 09h is masked, or two more come, which are lost. */
export const fullTrials = (names, codes) => [HELD_FULL, HELD_FULL + 2].map(more => ({
  says: `${TYPED_FULL} strokes of key ${names[0]} while INT 09h is masked, and then ${listed(names.slice(0, more))} go down`, calm: true, keys: keyFileOf(fullLines(names, more), 3 * REST),
  bytes: [...Array.from({ length: TYPED_FULL }, () => [codes[0], F0, codes[0]]).flat(), ...codes.slice(0, HELD_FULL), ...codes.slice(0, more).flatMap(code => [F0, code])],
}));

/** The PC switches the keyboard off in the frame of the first key, and there are four more strokes before it is on again. */
export const strokesInHold = (names, codes) => Array.from({ length: 12 }, (_, n) => {
  const list = [0, 1, 2, 3, 0], stamp = FIRST_MS * CYCLES_OF_A_MS + 60 + 25 * n;
  return {
    says: `the PC switches the keyboard off at cycle ${stamp}, and on after four more strokes`, bytes: list.map(at => codes[at]),
    keys: keyFileOf([...list.flatMap((at, place) => stroke(names[at], FIRST_MS + place * 50, 20)), { stamp, words: 'write64 AD' }, { ms: 300, words: 'write64 AE' }], 3 * REST),
  };
});

/** Trials of keys that repeat while they are held. */
export function repeatTrials(names, codes) {
  const [a, b, c] = names, list = [];
  for (const [n, name] of names.entries()) for (const ms of [450 - 100, 700, 1130, 1500]) list.push({ says: `key ${name} is held for ${ms} ms`, keys: keyFileOf(stroke(name, FIRST_MS + n, ms)), bytes: [codes[n]] });
  list.push(
    { says: `key ${b} goes down while ${a} is held`, keys: keyFileOf([press(a, 10), press(b, 300), release(b, 1400), release(a, 2100)]), bytes: [codes[0], codes[1]] },
    { says: `key ${a} goes up while ${b} is held`, keys: keyFileOf([press(a, 10), press(b, 300), release(a, 1000), release(b, 1600)]), bytes: [codes[0], codes[1]] },
    { says: `keys ${b} and ${c} go down while ${a} repeats`, keys: keyFileOf([press(a, 10), press(b, 800), release(b, 850), press(c, 1000), release(c, 1800), release(a, 1900)]), bytes: [codes[0], codes[1], codes[2]] },
    { says: `key ${a} is held twice`, keys: keyFileOf([...stroke(a, 10, 800), ...stroke(a, 1000, 900)]), bytes: [codes[0], codes[0]] },
  );
  return list.map((trial, n) => ({ ...trial, calm: true, fill: TRIAL_FILLS[n % TRIAL_FILLS.length] }));
}

/** The same trials of keys that repeat: what comes in time isn't counted. */
export const repeating = trials => trials.map(({ bytes, ...trial }) => ({ ...trial, read: bytes, reads: (lines, unit) => asTheyAre(withoutRepeats(lines, unit)) }));

/** The PC writes a byte at each time around a key's frame: both the key's byte and the answer come. */
export const writesAround = (name, code, asked, answer) => Array.from({ length: 130 }, (_, n) => {
  const stamp = FIRST_MS * CYCLES_OF_A_MS - 200 + 7 * n;
  return {
    says: `the PC writes ${asked} at cycle ${stamp}, about when key ${name} goes down`, bytes: [code, answer], any: true, takes: true,
    keys: keyFileOf([press(name, FIRST_MS), { stamp, words: `write60 ${asked}` }]),
  };
});

/** Each key alone. */
export const eachKey = (names, codes) => names.map((name, n) => ({ says: `key ${name} goes down and up`, keys: keyFileOf(stroke(name, FIRST_MS)), bytes: [codes[n]], calm: true, fill: TRIAL_FILLS[n % TRIAL_FILLS.length] }));

/** Those of a list at these places. */
export const chosen = (list, places) => places.map(at => list[at]);

const FULL_KEYS = ['q', 'w', 'e', 'r'], ITEMS_UP_TO_FULL = 1 + 3 * TYPED_FULL + 2 * HELD_FULL; // AA; a press is two items, and a release is one
const AFTER_TEST = 450; // ms after which the keyboard's self-test is over, in the model too
const TYPED_APART = 40; // ms, so that edges are in different ticks of the model

// What a keyboard must do as the model does, with these lines of a key file. What repeats in time isn't counted.
function likeModel(says, lines, more = {}) {
  const later = lines.map(it => ('ms' in it ? { ...it, ms: it.ms + AFTER_TEST } : it));
  return { says, likeModel: true, reads: (log, unit) => withLastLights(withoutRepeats(log, unit)), keys: keyFileOf(later, 3 * REST), ...more };
}

const writes = list => list.map(([ms, byte]) => ({ ms, words: `write60 ${byte}` }));

/** What a whole keyboard does as the model does: every key, keys that are held, what the PC asks, noise, and much of it at once. */
export function likeTheModel(names) {
  const groups = Array.from({ length: Math.ceil(names.length / 6) }, (_, n) => names.slice(6 * n, 6 * n + 6)), list = [];
  for (const [n, group] of groups.entries()) list.push(likeModel(`the keys ${listed(group)} go down and up`, group.flatMap((name, at) => stroke(name, 60 * at, 30)), { calm: true, fill: TRIAL_FILLS[n % TRIAL_FILLS.length] }));
  for (const name of ['a', 'grave', 'kp5', 'prtsc', 'f10']) for (const ms of [300, 700, 1130]) list.push(likeModel(`key ${name} is held for ${ms} ms`, stroke(name, 0, ms)));
  list.push(
    likeModel('shift makes a capital', [press('lshift', 0), ...stroke('h', 60, 60), release('lshift', 200), ...stroke('i', 260)]),
    likeModel('q goes down while a is held', [press('a', 0), press('q', 300), release('q', 1000), release('a', 1700)]),
    likeModel('a goes up while q is held', [press('a', 0), press('q', 300), release('a', 1000), release('q', 1700)]),
    likeModel('five strokes while INT 09h is masked', [{ ms: 0, words: 'mask' }, ...['q', 'w', 'e', 'r', 't'].flatMap((name, n) => stroke(name, 30 + 60 * n, 30)), { ms: 500, words: 'unmask' }]),
    likeModel('sixteen bytes wait while INT 09h is masked', fullLines(FULL_KEYS, HELD_FULL)),
    likeModel('eighteen bytes would wait while INT 09h is masked', fullLines(FULL_KEYS, HELD_FULL + 2), { reads: (log, unit) => withoutRepeats(log.slice(0, ITEMS_UP_TO_FULL), unit).map(it => it.item) }),
    likeModel('the PC sets the lights', writes([[0, 'ED'], [30, '05'], [80, 'EE'], [120, 'ED'], [150, '02']])),
    likeModel('the PC asks again and again', writes([[0, 'EE'], [40, 'FE'], [80, 'F4'], [120, 'FE'], [160, 'FE']])),
    likeModel('the PC asks for the byte of a key again', [press('a', 0), ...writes([[60, 'FE'], [100, 'EE'], [140, 'FE']]), release('a', 200), ...writes([[260, 'FE']])]),
    likeModel('the PC resets a keyboard of which a key is held', [press('w', 0), ...writes([[300, 'FF']]), release('w', 1500)]),
    likeModel('the PC resets a keyboard with lights', writes([[0, 'ED'], [30, '07'], [80, 'FF'], [700, 'EE']])),
  );
  for (let bit = 1; bit <= 9; bit++) list.push(likeModel(`noise turns bit ${bit} of the next byte`, [{ ms: 0, words: `flip ${bit}` }, ...stroke('v', 30), { ms: 150, words: `flip ${bit}` }, ...writes([[170, 'EE']])]));
  for (const seed of [5, 17, 29, 41, 59, 83]) list.push(likeModel('strokes, and what the PC writes between them', mixture(names, seed)));
  for (let n = 0; n < 40; n++) list.push(likeModel(`the PC writes EE ${17 * n} cycles after key k goes down`, [press('k', 0), { stamp: AFTER_TEST * CYCLES_OF_A_MS + 17 * n, words: 'write60 EE' }, release('k', 100)], { any: true }));
  return list;
}

// Twelve strokes that roll over, and a byte of the PC's after some of them.
function mixture(names, seed) {
  const next = stray(seed), number = bound => next.next().value(bound), lines = [];
  const typed = names.filter(name => !['ctrl', 'alt', 'num', 'caps', 'scroll', 'sysreq', 'prtsc'].includes(name));
  for (let ms = 0, count = 0; count < 12; count++, ms += 3 * TYPED_APART) {
    const name = typed[number(typed.length)];
    lines.push(press(name, ms), release(name, ms + TYPED_APART));
    const asked = [[], [[0, 'EE']], [[0, 'ED'], [20, `0${number(8)}`]], [[0, 'FE']]][number(4)];
    lines.push(...writes(asked.map(([at, byte]) => [ms + 1.5 * TYPED_APART + at, byte])));
  }
  return lines;
}
