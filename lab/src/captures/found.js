// What `capture` prints, line by line: the bytes, what is marked in the picture, and the words that INT 09h entered.
import { CLOCK, firstFrom } from '../wires.js';

export const NS_OF_A_CYCLE = 2500;
const NS_OF_A_US = 1000;
const SHORTEST_LOW = 5000; // ns: a shorter pulse of the clock is none of a frame
const ELEVEN = 11, MOST_MARKS = 100_000;
const LINE = /^(\d+)\.(\d{3}) (.*)$/;
const FRAME_LINE = /^(keyboard|host) ([0-9A-F]{2})(?:, (.*))?$/;
const PART = /^(keyboard|host) (only|broken off after|unfinished after) (\d+) of 11 edges$/;
// A line of the summary that says of the whole capture what is wrong.
const OF_SET_1 = 'these are codes of set 1: an XT keyboard';
const AGAIN_LINE = /^asks for ([0-9A-F]{2}) again$/, WORD_LINE = /^word ([0-9A-F]{4})$/;

const THE_SENDER = { keyboard: 'the keyboard', host: 'the PC' };
// Each fault of a frame with its sentence.
const FRAME_FAULTS = {
  'wrong start': 'the start bit is high', 'wrong parity': 'the parity bit doesn\'t fit the other bits',
  'wrong stop': 'the stop bit is low', 'not acknowledged': 'the keyboard doesn\'t acknowledge it',
};
const PARTS = {
  only: (who, many) => `The frame of ${who} has only ${many} of 11 edges: ${who === THE_SENDER.host && many === '0' ? 'the PC gave its request up' : 'no other came in time'}.`,
  'broken off after': (who, many) => `The PC held the clock when the frame of ${who} had ${many} of 11 edges.`,
  'unfinished after': (who, many) => `The capture ends within a frame of ${who}, after ${many} of 11 edges.`,
};
const outside = (what, time, limits) => `${what} ${Number(time)} µs. It must be ${limits} µs.`;
// Other lines that are marked, each with its sentence.
const SENTENCES = [
  [AGAIN_LINE, byte => `The PC sent FE: it asks for the byte ${byte} again.`],
  [/^edge without a start bit$/, () => 'The clock falls while data is high, so no frame begins.'],
  [/^pulse too short$/, () => 'The clock is low for at most 5 µs, which is too short for a bit.'],
  [/^clock stays low$/, () => 'The clock stays low up to the end of the capture.'],
  [/^clock (low|high) for ([\d.]+), not (\d+ to \d+)$/, (level, time, limits) => outside(`The clock is ${level} for`, time, limits)],
  [/^data changed ([\d.]+) before the fall, not (\d+ or more)$/, (time, limits) => outside('Data changes before the clock falls, by', time, limits)],
  [/^hold of ([\d.]+), not (\d+ or more)$/, (time, limits) => outside('The PC holds the clock for', time, limits)],
];

const capital = text => text[0].toUpperCase() + text.slice(1);

/** What a capture's text says: { bytes, marks, words, unmarked, isOfSet1 }, in cycles of 2.5 microseconds. The byte of a frame that isn't right
    has `fault`. A mark is a place with a sentence, { begin, end, sentence }. At most 100,000 are kept, and `unmarked` counts the
    others. `wires` has the changes that the text is about, { times, levels }. */
export function foundIn(text, wires) {
  const found = { bytes: [], marks: [], words: [], unmarked: 0, isOfSet1: false };
  for (let from = 0, end; from < text.length; from = end + 1) {
    end = text.indexOf('\n', from);
    if (end < 0) end = text.length;
    const said = text.slice(from, end), line = LINE.exec(said);
    if (line) readLine(found, Number(line[1]) * NS_OF_A_US + Number(line[2]), line[3], wires);
    else if (said === OF_SET_1) found.isOfSet1 = true;
  }
  for (const list of [found.bytes, found.marks]) list.sort((one, other) => one.begin - other.begin);
  return found;
}

function readLine(found, time, said, wires) {
  const begin = time / NS_OF_A_CYCLE, endAfter = falls => lastFall(wires, time, falls) / NS_OF_A_CYCLE;
  const mark = (sentence, end = begin) => {
    if (found.marks.length < MOST_MARKS) found.marks.push({ begin, end, sentence });
    else found.unmarked++;
  };
  let line = FRAME_LINE.exec(said);
  if (line) {
    const [, sender, byte, fault] = line, end = endAfter(ELEVEN);
    found.bytes.push({ begin, end, sender, byte: Number.parseInt(byte, 16), ...(fault && { fault }) });
    const faults = fault?.split(', ').map(it => FRAME_FAULTS[it] ?? it).join(', and ');
    if (fault) mark(`${capital(THE_SENDER[sender])} sends ${byte}, and ${faults}.`, end);
    return;
  }
  line = PART.exec(said);
  if (line) {
    const [, sender, kind, many] = line;
    mark(PARTS[kind](THE_SENDER[sender], many), endAfter(Number(many)));
    return;
  }
  line = WORD_LINE.exec(said);
  if (line) {
    found.words.push(Number.parseInt(line[1], 16));
    return;
  }
  for (const [form, sentence] of SENTENCES) {
    line = form.exec(said);
    if (line) mark(sentence(...line.slice(1)));
  }
}

/** The time of the last of so many falls of the clock, the first of which is at `time`. A pulse that is too short is none of them. */
function lastFall({ times, levels }, time, falls) {
  let left = falls, fell = time;
  for (let at = firstFrom(times, time); at < times.length; at++) {
    const isHigh = (levels[at] & CLOCK) !== 0, wasHigh = at === 0 || (levels[at - 1] & CLOCK) !== 0;
    if (wasHigh && !isHigh) fell = times[at];
    else if (isHigh && !wasHigh && times[at] - fell > SHORTEST_LOW && --left === 0) break;
  }
  return fell;
}
