// A capture of two real wires: what the program finds in it, and the levels that are drawn.
import { Refused } from '../boards/refused.js';
import { csvRecording } from './csv_recording.js';
import { NS_OF_A_CYCLE, foundIn } from './found.js';
import { dumpOf } from './recording.js';
import { vcdRecording } from './vcd_recording.js';

const DUMP = 'capture.vcd', NAMES = ['clock', 'data'];
const DOLLAR_SIGN = 36, BLANK = 32;

const isDump = (name, bytes) => /\.vcd$/i.test(name) || bytes[bytes.findIndex(it => it > BLANK)] === DOLLAR_SIGN;

// The two wires of a dump by the names that the program takes without words, or as they are guessed. The program says what is
// wrong with a dump, so nothing is refused here.
function wiresOfDump(recording) {
  const [clock, data] = NAMES.map(it => recording.names.indexOf(it));
  if (clock >= 0 && data >= 0) return { clock, data, told: ['The signals have the names clock and data'] };
  try {
    return recording.guess();
  } catch (fault) {
    if (!(fault instanceof Refused)) throw fault;
    return { clock: 0, data: recording.names.length - 1, told: recording.names.length ? [fault.message] : [] };
  }
}

/** What is in a capture, by its name and bytes: { names, clock, data, told, exit, text, cycles, levels, found }; or { refused }, which
    says why nothing is. From each cycle on, of 2.5 microseconds, both wires have the levels beside it. `chosen` has the places of both signals among the names, or is null. Then they are guessed, which `told` says. */
export function captureOf(program, { name, bytes, chosen }) {
  try {
    const hasSignals = isDump(name, bytes), recording = hasSignals ? vcdRecording(bytes) : csvRecording(bytes), { names } = recording;
    const { clock, data, told = [] } = chosen ?? (hasSignals ? wiresOfDump(recording) : recording.guess());
    const wires = names.length ? recording.wires(clock, data) : { times: new Float64Array(), levels: new Uint8Array() };
    const signals = hasSignals && names.length ? [names[clock], names[data]] : NAMES, words = signals.join() === NAMES.join() ? [] : signals;
    const { exit, text } = program.run(['capture', DUMP, ...words], { [DUMP]: hasSignals ? bytes : dumpOf(wires) });
    const cycles = wires.times.map(it => it / NS_OF_A_CYCLE);
    return { names, clock, data, told, exit, text, cycles, levels: wires.levels, found: foundIn(text, wires) };
  } catch (fault) {
    if (!(fault instanceof Refused)) throw fault;
    return { refused: fault.message };
  }
}
