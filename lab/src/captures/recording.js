// What an analyser has recorded: its channels, each with the times at which it changes. Which of them is the clock is guessed by
// the rules of examples/captured.
import { Refused } from '../boards/refused.js';
import { CLOCK, DATA } from '../wires.js';

// The width of a pulse of a keyboard's clock, in nanoseconds: 30 to 50 microseconds, and some more for one that is worn.
const SHORTEST_PULSE = 20_000, LONGEST_PULSE = 55_000;
const LINES_OF_A_PIECE = 1 << 16;
const DUMP_HEAD = ['$timescale 1 ns $end', '$scope module keyboard $end', '$var wire 1 c clock $end', '$var wire 1 d data $end', '$upscope $end', '$enddefinitions $end'];
const LETTERS = [[CLOCK, 'c'], [DATA, 'd']];

export class Recording {
  /** Channels of these names, which have no sample yet. `times` has the time of each sample at which a channel changes, and of
      the first, in nanoseconds. Of a channel `first` is its level at first, and `changes` has the places in `times`. */
  constructor(names) {
    const channels = names.map(() => ({ first: 1, changes: [] }));
    Object.assign(this, { names, times: [], channels, last: new Uint8Array(names.length) });
  }

  /** The next sample: its time, and the level of each channel, 0 or 1. */
  sample(time, levels) {
    const { times, channels, last } = this, isFirst = times.length === 0;
    let hasChanged = isFirst;
    for (let at = 0; at < last.length; at++) {
      if (isFirst) channels[at].first = levels[at];
      else if (levels[at] !== last[at]) {
        channels[at].changes.push(times.length);
        hasChanged = true;
      }
      last[at] = levels[at];
    }
    if (hasChanged) times.push(time);
  }

  /** How many low pulses of a channel are as long as those of a keyboard's clock. */
  pulses(at) {
    const { times } = this, { first, changes } = this.channels[at];
    let fell = first === 0 ? times[0] : null, level = first, count = 0;
    for (const place of changes) {
      level ^= 1;
      if (level === 0) fell = times[place];
      else if (times[place] - fell >= SHORTEST_PULSE && times[place] - fell <= LONGEST_PULSE) count++;
    }
    return count;
  }

  /** How often a channel changes. */
  changesOf(at) { return this.channels[at].changes.length; }

  /** The places of the clock and of data, { clock, data, told }: `told` says how the clock and data were guessed. It refuses a
      recording in which none moves. */
  guess() {
    const moving = this.names.map((_, at) => at).filter(at => this.changesOf(at) > 0), told = [];
    if (!moving.length) throw new Refused('no channel moves, so none is the clock');
    const clock = greatestOf(moving, at => [this.pulses(at), this.changesOf(at)]);
    told.push(`${this.names[clock]} is probably the clock: it has ${this.pulses(clock)} pulses of 20 to 55 µs`);
    const others = moving.filter(at => at !== clock);
    if (!others.length) throw new Refused('no second channel moves, so none is data');
    const data = greatestOf(others, at => [this.changesOf(at)]);
    told.push(`${this.names[data]} is probably data: it changes ${this.changesOf(data)} times`);
    return { clock, data, told };
  }

  /** The two wires, { times, levels }: the levels from each time on, the first sample among them. A recording that begins before
      zero is put off, so that it begins there. */
  wires(clock, data) {
    const { times, channels } = this, pair = [channels[clock], channels[data]], start = Math.min(0, times[0]);
    const found = new Float64Array(1 + pair[0].changes.length + pair[1].changes.length), levels = new Uint8Array(found.length), next = [0, 0];
    let many = 0, now = pair[0].first * CLOCK | pair[1].first * DATA;
    for (let place = 0; ; many++) {
      found[many] = times[place] - start;
      levels[many] = now;
      place = Math.min(...pair.map(({ changes }, at) => changes[next[at]] ?? Infinity));
      if (place === Infinity) break;
      for (const [at, wire] of [CLOCK, DATA].entries()) {
        if (pair[at].changes[next[at]] !== place) continue;
        now ^= wire;
        next[at]++;
      }
    }
    return { times: found.subarray(0, many + 1), levels: levels.subarray(0, many + 1) };
  }
}

// The first of these places with the greatest measure, a list of numbers.
function greatestOf(places, measure) {
  const isGreater = (one, other) => {
    const at = one.findIndex((it, n) => it !== other[n]);
    return at >= 0 && one[at] > other[at];
  };
  return places.reduce((best, place) => (isGreater(measure(place), measure(best)) ? place : best));
}

/** The value change dump of two wires, which `capture` reads, as bytes. Its signals are `clock` and `data`. */
export function dumpOf({ times, levels }) {
  const coder = new TextEncoder(), pieces = [], lines = [...DUMP_HEAD];
  const put = () => pieces.push(coder.encode(`${lines.splice(0).join('\n')}\n`));
  for (let at = 0; at < times.length; at++) {
    const changed = at === 0 ? CLOCK | DATA : levels[at] ^ levels[at - 1];
    lines.push(`#${times[at]}`);
    for (const [wire, letter] of LETTERS) if (changed & wire) lines.push(`${levels[at] & wire ? 1 : 0}${letter}`);
    if (lines.length >= LINES_OF_A_PIECE) put();
  }
  put();
  return joined(pieces);
}

function joined(pieces) {
  const bytes = new Uint8Array(pieces.reduce((sum, it) => sum + it.length, 0));
  let to = 0;
  for (const piece of pieces) {
    bytes.set(piece, to);
    to += piece.length;
  }
  return bytes;
}
