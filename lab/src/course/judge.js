// Judges a program: it makes the run of each trial, and finds the first thing in which one isn't what it must be. `say(words,
// files)` is the proved program: it answers { exit, text }. What is found has `says`, where it was; `what` is compared; what was
// `expected` and `got`, line by line, up to the first `line` that differs; and a `trace` with the cycle `at`, if it is of wires. Of a
// file that the program refuses it has `refused` in place of the first two (refusal.js).
import { hex } from '../dom.js';
import { CYCLES_OF_A_TICK } from '../times.js';
import { readTrace } from '../vcd.js';
import { calmFault, fallsOf, heardFault, stampOf, takenFault } from './frames.js';
import { asTheyAre, logLinesOf } from './logs.js';

const NOTHING = 'nothing more';

/** What a log or `words` says, without its times. */
export const itemsIn = (text, isTimed) => text.split('\n').filter(Boolean).map(line => (isTimed ? line.slice(line.indexOf(' ') + 1) : line));

// What the program has said of texts that are the same in each check, such as the model's logs.
const saidBefore = new Map();

function saidOnce(key, act) {
  if (!saidBefore.has(key)) saidBefore.set(key, act());
  return saidBefore.get(key);
}

/** The items that INT 09h says of these bytes of the keyboard. */
export const itemsOfBytes = (say, bytes) => (bytes.length ? saidOnce(bytes.join(' '), () => itemsIn(say(['words', ...bytes], {}).text, false)) : []);

/** The first line in which two lists differ, or -1. */
function firstDifference(expected, got) {
  const line = expected.findIndex((it, n) => it !== got[n]);
  if (line >= 0) return line;
  return got.length > expected.length ? expected.length : -1;
}

/** What is found if two lists differ, or null. */
export function differing(says, what, expected, got, more = {}) {
  const line = firstDifference(expected, got);
  return line < 0 ? null : { says, what, line, expected: [...expected, NOTHING], got: [...got, NOTHING], ...more };
}

const FILES = ['own.hex', 'board.toml', 'trial.keys'];

// What a program says of a trial: its log, and its trace.
function runOf(say, image, layout, trial) {
  const files = { 'own.hex': image, 'board.toml': layout, 'trial.keys': trial.keys };
  const words = ['board', ...FILES, ...(trial.fill ? ['--fill', trial.fill] : [])];
  const log = say(words, files), traced = say([...words, '--trace'], files);
  return { log, trace: log.exit === 0 && traced.exit === 0 ? readTrace(traced.text) : null };
}

// What the PC must read in a trial: what it lists, what the model of the keyboard says, or what comes of its bytes.
function expectedOf(say, layout, { items, likeModel, bytes, read = bytes, keys, reads = asTheyAre }) {
  if (items) return items;
  if (likeModel) {
    const files = { 'board.toml': layout, 'trial.keys': keys };
    return reads(logLinesOf(saidOnce(JSON.stringify(files), () => say(['expect', 'board.toml', 'trial.keys'], files).text)), CYCLES_OF_A_TICK);
  }
  return itemsOfBytes(say, read);
}

/** What is found if a run isn't made up to its end. */
export const unfinished = (says, log) => ({ says, what: 'the run', line: 0, expected: ['it goes on to its end'], got: [log.text.trimEnd().split('\n').at(-1)] });

// A fault of the wires as what is found.
const wireFound = (says, found, trace) => found && {
  says, what: `${found.rule}, at stamp ${stampOf(found.cycle)}`, line: 0, expected: [found.expected], got: [found.got], trace, at: found.cycle,
};

/** The first thing in which one trial isn't as it must be, or null. */
export function tried(say, image, layout, trial) {
  const { log, trace } = runOf(say, image, layout, trial), { says, reads = asTheyAre } = trial;
  if (!trace) return unfinished(says, log);
  const inOrder = list => (trial.any ? [...list].sort() : list), heard = trace.bytes.filter(it => it.sender === 'keyboard').map(it => hex(it.byte));
  const wires = wireFound(says, trial.calm ? calmFault(trace) : heardFault(trace) ?? (trial.takes ? takenFault(trace) : null), trace);
  const more = { trace, at: trace.edges.at(-1)?.cycle };
  return wires ?? differing(says, 'what the PC reads', inOrder(expectedOf(say, layout, trial)), inOrder(reads(logLinesOf(log.text), 1)))
    ?? (trial.bytes === undefined ? null : differing(says, 'the bytes on the wires', inOrder(trial.bytes), inOrder(heard), more))
    ?? (trial.falls === undefined ? null : differing(says, 'falls of the clock', [String(trial.falls)], [String(fallsOf(trace))], more));
}

/** Makes one trial after the other, and hands over how many of how many are made; it returns the first thing that is found. */
export function* judging(say, image, layout, trials) {
  for (const [n, trial] of trials.entries()) {
    yield { made: n, of: trials.length };
    const found = tried(say, image, layout, trial);
    if (found) return found;
  }
  return null;
}
