// What a trace has against the rules of a frame: eleven falls of the clock 32 cycles apart, 16 low and 16 high, and data that is
// there before each fall. The program hears a byte if its falls are 32 cycles apart; the other rules are those of a real board.
import { FIRST_STAMP } from '../times.js';
import { BOTH, CLOCK, DATA } from '../wires.js';

const FALLS_OF_A_FRAME = 11, FALLS_APART = 32, LOW = 16, SET_UP = 2, HELD_BY_PC = 60; // cycles
const START = 0, PARITY = 9, STOP = 10; // falls

/** A time of a trace as the log has it. */
export const stampOf = cycle => cycle - FIRST_STAMP;

// The falls of the clock, and its rises, each with the level of data and the cycles for which the clock was low; and the changes of
// data. Each fall has its rise, if there is one.
function changesOf(edges) {
  const falls = [], rises = [], data = [];
  let before = BOTH;
  for (const { cycle, levels } of edges) {
    if (before & ~levels & CLOCK) falls.push({ cycle, data: levels & DATA ? 1 : 0, low: Infinity });
    if (~before & levels & CLOCK) {
      const fall = falls.at(-1);
      fall.low = cycle - fall.cycle;
      rises.push({ cycle, data: levels & DATA, low: fall.low });
    }
    if ((before ^ levels) & DATA) data.push({ cycle, isHigh: (before & CLOCK) !== 0 });
    before = levels;
  }
  return { falls, rises, data };
}

const fault = (cycle, rule, expected, got) => ({ cycle, rule, expected: String(expected), got: String(got) });

const parityOf = byte => 1 ^ byte.reduce((sum, bit) => sum ^ bit, 0);

// One frame, whose falls are given.
function frameFault(frame, { data }) {
  for (let n = 1; n < FALLS_OF_A_FRAME; n++) {
    if (!frame[n]) return fault(frame[n - 1].cycle, 'falls of the clock in a frame', FALLS_OF_A_FRAME, n);
    const apart = frame[n].cycle - frame[n - 1].cycle;
    if (apart !== FALLS_APART) return fault(frame[n - 1].cycle, 'cycles from a fall of the clock to the next', FALLS_APART, apart);
    const { low } = frame[n - 1];
    if (low !== LOW) return fault(frame[n - 1].cycle, 'cycles for which the clock is low in a bit', LOW, low);
  }
  const last = frame.at(-1).cycle, bits = frame.map(it => it.data);
  const late = data.find(({ cycle, isHigh }) => cycle > frame[0].cycle - SET_UP && cycle <= last &&
    (!isHigh || frame.some(it => cycle > it.cycle - SET_UP && cycle <= it.cycle)));
  if (late) return fault(late.cycle, 'when data changes in a frame', `the clock is high, and ${SET_UP} cycles or more before it falls`, late.isHigh ? 'as it falls' : 'the clock is low');
  if (bits[START] !== 0) return fault(frame[0].cycle, 'the start bit', 0, 1);
  const parity = parityOf(bits.slice(1, PARITY));
  if (bits[PARITY] !== parity) return fault(frame[PARITY].cycle, 'the parity bit', parity, bits[PARITY]);
  if (bits[STOP] !== 1) return fault(frame[STOP].cycle, 'the stop bit', 1, 0);
  return null;
}

/** The first fault of a trace in which the keyboard alone begins to pull the wires: each fall of the clock is one of a frame. */
export function calmFault({ edges }) {
  const changes = changesOf(edges), { falls } = changes;
  for (let n = 0; n < falls.length; n += FALLS_OF_A_FRAME) {
    const found = frameFault(falls.slice(n, n + FALLS_OF_A_FRAME), changes);
    if (found) return found;
  }
  return null;
}

/** The first fault of the frames in which a trace heard a byte of the keyboard's, whatever else passes. */
export function heardFault({ edges, bytes }) {
  const changes = changesOf(edges), { falls } = changes;
  for (const { sender, end } of bytes) {
    if (sender !== 'keyboard') continue;
    const last = falls.findLastIndex(it => it.cycle <= end) + 1, found = frameFault(falls.slice(last - FALLS_OF_A_FRAME, last), changes);
    if (found) return found;
  }
  return null;
}

/** The first frame of the PC's in which the keyboard doesn't pull data for the last clock. The PC asks for a frame by letting go
    of the clock, which it has held, while it pulls data. */
export function takenFault({ edges }) {
  const { falls, rises } = changesOf(edges);
  for (const rise of rises) {
    if (rise.low < HELD_BY_PC || rise.data) continue;
    const last = falls.filter(it => it.cycle > rise.cycle)[FALLS_OF_A_FRAME - 1];
    if (last?.data) return fault(last.cycle, 'data for the last clock of the PC\'s byte', 'low', 'high');
  }
  return null;
}

/** The frames in which the keyboard sends a byte: each by the cycles of its first fall and of its last. */
export function framesSent({ edges, bytes }) {
  const { falls } = changesOf(edges);
  return bytes.filter(it => it.sender === 'keyboard').map(({ end }) => {
    const last = falls.findLastIndex(it => it.cycle <= end);
    return [falls[last - FALLS_OF_A_FRAME + 1].cycle, falls[last].cycle];
  });
}

/** How often the clock fell. */
export const fallsOf = ({ edges }) => changesOf(edges).falls.length;
