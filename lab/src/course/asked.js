// What each kind of lesson asks of a file: `judges(say, text, files)` goes on trial by trial, and returns the first thing that is
// wrong, or null.
import { hex } from '../dom.js';
import { programIn } from '../firmware/hex_file.js';
import { PROGRAM_SIZE } from '../firmware/image_place.js';
import { framesSent, stampOf } from './frames.js';
import { differing, itemsIn, itemsOfBytes, judging, unfinished } from './judge.js';
import { AT_CODES } from './programs.js';
import { refusedBytes, refusedFile } from './refusal.js';
import { askedAfter, askedBefore, brokenOff, brokenOffAgain, inFrame, keyFileOf, makeTrials, silences, switchedOff } from './trials.js';
import { readTrace } from '../vcd.js';

const done = answer => answer.exit === 0;

/** The image of a source, or what is found of it if the program refuses it. */
function imageOf(say, text) {
  const made = say(['asm', 'own.asm'], { 'own.asm': text });
  return done(made) ? { image: made.text } : { refused: refusedFile(made, text) };
}

/** The layout of keys in column 0, from row 0 on. */
export const columnOf = names => columnsOf([names]);

const WRITES_APART = 3; // cycles between two times at which the PC writes

// The stamps between which the program sends each byte.
function framesOf(say, image, layout, keys) {
  const traced = say(['board', 'own.hex', 'board.toml', 'trial.keys', '--trace'], { 'own.hex': image, 'board.toml': layout, 'trial.keys': keys });
  return done(traced) ? framesSent(readTrace(traced.text)).map(frame => frame.map(stampOf)) : [];
}

const frameOf = (say, image, layout, name) => framesOf(say, image, layout, keyFileOf([{ ms: 10, words: `press ${name}` }, { ms: 60, words: `release ${name}` }]))[0];

/** Keys that send a byte each when they go down; each in column 0, from row 0 on. */
export const sendsOnPress = (names, codes) => function* judged(say, text) {
  const { image, refused } = imageOf(say, text), layout = columnOf(names);
  if (refused) return refused;
  const first = yield* judging(say, image, layout, [...makeTrials(names, codes), ...silences(names)]);
  if (first) return first;
  const frame = frameOf(say, image, layout, names[0]);
  return yield* judging(say, image, layout, [
    ...names.flatMap((name, n) => brokenOffAgain(name, codes[n], frame)), ...[brokenOff, switchedOff].flatMap(kind => kind(names[0], codes[0], frame, WRITES_APART)),
  ]);
};

// Begins a program later, so that the PC can write before its first byte.
const LATER = '        MOV R6,#10\nbegin_late: MOV R7,#0\nbegin_wait: DJNZ R7,begin_wait\n        DJNZ R6,begin_late\n';
const FIRST_PLACE = /^(?:[ \t]*(?:;.*)?\n)*[ \t]*ORG[ \t]+0+H?[ \t]*(?:;.*)?\n|^/i;

/** A program that sends these bytes after power-on does so too if the PC writes before or within the first of them. */
export const sendsAtAnyTime = (layout, bytes) => function* judgedAtAnyTime(say, text) {
  const { image, refused } = imageOf(say, text.replace(FIRST_PLACE, first => first + LATER));
  if (refused) return refused;
  const [frame] = framesOf(say, image, layout, keyFileOf([{ ms: 60, words: 'write64 AE' }]));
  if (!frame) return differing('power-on', 'the bytes on the wires', bytes, []);
  return yield* judging(say, image, layout, [...inFrame([], bytes, frame), ...askedBefore(frame)].map(trial => ({ ...trial, says: `the program begins later, and ${trial.says}` })));
};

/** A program that answers FF with FA and AA sends AA too if the PC breaks it off; and it doesn't send it if the PC wants to write. */
export const answersAtAnyTime = layout => function* judgedAnswers(say, text) {
  const { image, refused } = imageOf(say, text), lines = [{ ms: 10, words: 'write60 FF' }];
  if (refused) return refused;
  const [first, second] = framesOf(say, image, layout, keyFileOf(lines));
  return yield* judging(say, image, layout, [...askedAfter(lines, first), ...inFrame(lines, ['FA', 'AA'], second)]);
};

/** What both ask of a file. */
export const both = (first, second) => function* judgedByBoth(...given) {
  return (yield* first(...given)) ?? (yield* second(...given));
};

/** A program on a board with this layout, in these trials; and then in those that depend on the frame of a key, if one is named. */
export const doesInTrials = (layout, trials, byKey) => function* judgedInTrials(say, text) {
  const { image, refused } = imageOf(say, text);
  if (refused) return refused;
  const first = yield* judging(say, image, layout, trials);
  if (first || !byKey) return first;
  const frame = frameOf(say, image, layout, byKey.name);
  return yield* judging(say, image, layout, [brokenOff, switchedOff].flatMap(kind => kind(byKey.name, byKey.code, frame, 2 * WRITES_APART)).map(byKey.as ?? (it => it)));
};

const AT = 'us84.toml';

/** A program on the AT's board, in the trials of its keys, `trialsOf(names, codes)`. */
export const doesOnTheAt = (trialsOf, byKey) => function* judgedOnTheAt(say, text, files) {
  const keys = [...files[AT].matchAll(/^key = "(\w+)"\ncolumn = (\d+)\nrow = (\d+)$/gm)].map(([, name, column, row]) => ({ name, code: AT_CODES[column][row] }));
  return yield* doesInTrials(files[AT], trialsOf(keys.map(it => it.name), keys.map(it => it.code)), byKey)(say, text);
};

/** The layout of keys in columns, each a list of names from row 0 on. */
export const columnsOf = columns => `format = 1\n${columns.flatMap((names, column) => names.map((name, row) => `[[key]]\nkey = "${name}"\ncolumn = ${column}\nrow = ${row}\n`)).join('')}`;

/** Bytes after `words`, whose items are those of one of these lists. */
export const saysOfBytes = (...lists) => function* judged(say, text) {
  yield { made: 0, of: 1 };
  const words = text.trim().split(/\s+/).filter(Boolean), said = say(['words', ...words], {});
  if (!done(said)) return refusedBytes(said, words);
  const got = itemsIn(said.text, false), found = lists.map(bytes => differing('these bytes', 'what the PC reads', itemsOfBytes(say, bytes), got));
  // The one that agrees for longest says what differs.
  return found.includes(null) ? null : found.reduce((best, it) => (it.line > best.line ? it : best));
};

const CELL = 0x20, CELLS_MASK = 0x7F, BANK_BIT = 0x10, MOST_STEPS = 600, POWER_ON_FILLS = ['00', 'A5', 'FF', '20', '01', '5A'];
// Instructions with a cell that R0 or R1 names: those that read it, and those that write it, without their last bit.
const READS = [0x10, 0x20, 0x30, 0x40, 0x50, 0x60, 0x70, 0xD0, 0xF0], WRITES = [0x10, 0x20, 0x30, 0xA0, 0xB0];

// What a program does with the cell, step by step: each state has the counter, R0 and R1 of both banks, and the cell.
function* usesOfCell(say, image, files, fill) {
  const script = [...Array.from({ length: MOST_STEPS }, () => ['show', 'ram 00', 'ram 01', 'ram 18', 'ram 19', 'ram 20', 'step 1']).flat(), ''].join('\n');
  const said = say(['probe', 'own.hex', 'board.toml', 'trial.keys', 'trial.script', '--fill', fill], { ...files, 'trial.script': script });
  const program = programIn(image, PROGRAM_SIZE), states = said.text.split(/^(?=pc )/m).slice(1);
  for (const state of states) {
    const place = Number.parseInt(/^pc (\w+)/.exec(state)[1], 16), psw = Number.parseInt(/psw (\w+)/.exec(state)[1], 16);
    const cells = new Map([...state.matchAll(/^ram (\w+) (\w+)$/gm)].map(([, cell, byte]) => [Number.parseInt(cell, 16), Number.parseInt(byte, 16)]));
    const operation = program[place], register = (psw & BANK_BIT ? 0x18 : 0) + (operation & 1);
    if ((cells.get(register) & CELLS_MASK) !== CELL) continue;
    const kind = operation & ~1;
    if (READS.includes(kind)) yield { isRead: true, place, byte: cells.get(CELL) };
    if (WRITES.includes(kind)) yield { isRead: false };
  }
}

/** The program writes 00 to a cell before it reads it, and gives one log whatever memory holds at power-on. */
export const writesBeforeRead = (keys, items) => function* judged(say, text) {
  const { image, refused } = imageOf(say, text);
  if (refused) return refused;
  const files = { 'own.hex': image, 'board.toml': columnOf(['a']), 'trial.keys': keys };
  for (const [n, fill] of POWER_ON_FILLS.entries()) {
    yield { made: n, of: POWER_ON_FILLS.length };
    const says = `memory holds ${fill} at power-on`, log = say(['board', 'own.hex', 'board.toml', 'trial.keys', '--fill', fill], files);
    if (!done(log)) return unfinished(says, log);
    const differs = differing(says, 'what the log says', items, itemsIn(log.text, true));
    if (differs) return differs;
    const uses = [...usesOfCell(say, image, files, fill)], read = uses.findIndex(it => it.isRead);
    const got = read < 0 ? 'it never reads the cell' : uses.slice(0, read).every(it => it.isRead) ? `it reads the cell at ${hex(uses[read].place, 3)} before anything has written it` : `it reads ${hex(uses[read].byte)}`;
    const found = differing(says, 'the cell 20 when the program first reads it', ['it reads 00'], [got]);
    if (found) return found;
  }
  return null;
};

const TARGET = /^target ([0-9A-F]{3})$/im;

/** A certificate of an image for this target, which bounds the time from a place by so many cycles at most. */
export const certifies = (imageName, target, place, most) => function* judged(say, text, files) {
  yield { made: 0, of: 1 };
  const said = say(['cert', imageName, 'own.cert'], { [imageName]: files[imageName], 'own.cert': text });
  if (!done(said)) return refusedFile(said, text);
  const named = TARGET.exec(text)?.[1].toUpperCase(), row = new RegExp(`^${place} (\\d+)(?: (\\d+) \\d)?\\s*$`, 'im').exec(text);
  const got = row ? (row[2] && row[2] !== '0' ? 'a bound that counts a register' : Number(row[1]) > most ? `${row[1]} cycles` : 'that') : 'no line for this place';
  return differing('the certificate', 'the target', [target], [named ?? 'none'])
    ?? differing('the certificate', `the bound of place ${place}`, [got === 'that' ? got : `at most ${most} cycles`], [got]);
};
