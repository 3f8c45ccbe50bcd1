// A run of a key file that is looked at step by step. The program makes it under a script, which shows many states in one run.
import { hex } from './dom.js';
import { FIRST_STAMP } from './times.js';
import { explained, kbd48 } from './program.js';
import { runs } from './runs.js';

export const CELLS = 128;
const PSW = { carry: 0x80, 'auxiliary carry': 0x40, F0: 0x20, bank: 0x10 };
const DEPTH = 7, STACK = 8, BANKS = [0x00, 0x18];
export const FOREVER = 999_999_999;

// A script has at most 65,536 bytes, and what shows a state has 901.
const STATES_OF_A_RUN = 60, A_FEW = 5, MOST_KEPT = 6000;
const SHOW = ['show', ...Array.from({ length: CELLS }, (_, cell) => `ram ${hex(cell)}`)];

const LINES_OF_A_STATE = SHOW.length + 4;

/** A line of `show` as names and values. */
function fields(line) {
  const words = line.split(' '), pairs = [];
  for (let n = 0; n + 1 < words.length; n += 2) pairs.push([words[n], words[n + 1]]);
  return Object.fromEntries(pairs);
}

function stateOf(lines) {
  const [first, second, third, , last] = lines, { steps, cycles } = fields(last);
  const named = { ...fields(first), ...fields(second), ...fields(third) };
  const cells = lines.slice(5).map(line => Number.parseInt(line.split(' ')[2], 16)), psw = Number.parseInt(named.psw, 16);
  return {
    steps: Number(steps), cycles: Number(cycles), counter: Number.parseInt(named.pc, 16), named, cells,
    ...partsOf(psw, cells),
  };
}

/** What the status word and data memory say: the flags, both banks, the stack. */
export const partsOf = (psw, cells) => ({
  flags: Object.fromEntries(Object.entries(PSW).map(([name, bit]) => [name, psw & bit ? 1 : 0])),
  banks: BANKS.map(at => cells.slice(at, at + 8)),
  stack: Array.from({ length: psw & DEPTH }, (_, n) => {
    const [low, high] = cells.slice(STACK + 2 * n);
    return (high & 15) << 8 | low;
  }),
});

export class Session {
  /** The texts of an image, a layout and a key file; refused as the program refuses them. The log of a long run comes later, and
      `onLog` is called then. */
  constructor(image, layout, keys, onLog) {
    this.files = { 'session.image': image, 'session.layout': layout, 'session.keys': keys };
    this.kept = new Map();
    this.ahead = { gone: [] };
    this.said = [];
    this.state = this.at(0);
    const answer = runs.run(['board', 'session.image', 'session.layout', 'session.keys'], this.files);
    if (answer instanceof Promise) answer.then(later => this.#take(later, onLog));
    else this.#take(answer);
  }

  // The log of the whole run; nothing, if somebody stopped it.
  #take(answer, then = () => {}) {
    if (!answer) return;
    this.said = answer.text.trimEnd().split('\n').filter(line => /^-?\d+ /.test(line)).map(line => ({ stamp: Number.parseInt(line, 10), line }));
    then();
  }

  /** What the log said up to now. */
  get log() { return this.said.filter(item => item.stamp <= this.state.cycles - FIRST_STAMP).map(item => item.line); }

  /** The state after so many steps. The program answers the next ones in the same run, or the ones before it for somebody who
      goes back; and all of these are kept, so that they need no other run. */
  at(steps) {
    if (!this.kept.has(steps)) {
      const first = Math.max(0, this.kept.has(steps + 1) ? steps - STATES_OF_A_RUN + 2 : steps - A_FEW);
      const way = Array.from({ length: STATES_OF_A_RUN - 1 }, () => 'step 1'), states = this.#run(first ? [`step ${first}`] : [], way).map(({ state }) => state);
      if (this.kept.size > MOST_KEPT) this.kept.clear();
      for (const state of states) this.kept.set(state.steps, state);
      // After the end of the run nothing changes.
      if (!this.kept.has(steps)) return states.at(-1);
    }
    return this.kept.get(steps);
  }

  /** Goes on by at most so many steps, up to the first that one of the probes' lines (`arm ..`) meets. */
  go(most, arms) {
    const { steps } = this.state;
    if (most === 1 && !arms.length) {
      const state = this.at(steps + 1);
      return { state, hit: null, ended: state.steps === steps };
    }
    return this.#run([...(steps ? [`step ${steps}`] : []), ...arms, `${arms.length ? 'go' : 'step'} ${most}`], []).at(-1);
  }

  /** The same, for somebody who goes on by so many steps time and again: the program answers many of them in one run. */
  goOn(most, arms) {
    const { steps } = this.state, asked = [steps, most, ...arms].join();
    if (most === 1 && !arms.length) return this.go(1, []);
    if (this.ahead.asked !== asked || !this.ahead.gone.length) {
      const way = Array.from({ length: STATES_OF_A_RUN - 1 }, () => `${arms.length ? 'go' : 'step'} ${most}`);
      this.ahead = { gone: this.#run([...(steps ? [`step ${steps}`] : []), ...arms], way).slice(1) };
    }
    const next = this.ahead.gone.shift();
    this.ahead.asked = [next.state.steps, most, ...arms].join();
    return next;
  }

  /** Goes back by a step. */
  back() { return this.at(Math.max(0, this.state.steps - 1)); }

  // The states after the first lines of a script, and after each line of its way.
  #run(first, way) {
    const script = [...first, ...SHOW, ...way.flatMap(line => [line, ...SHOW]), ''].join('\n');
    const said = kbd48(['probe', 'session.image', 'session.layout', 'session.keys', 'session.script'], { ...this.files, 'session.script': script });
    if (said.exit !== 0) throw Object.assign(new Error(explained(said)?.words ?? said.text), { refused: true });
    const lines = said.text.trimEnd().split('\n');
    return Array.from({ length: way.length + 1 }, (_, n) => {
      const begin = first.length + n * (LINES_OF_A_STATE + 1), last = lines[begin - 1] ?? '', hit = /^hit (\d)/.exec(last);
      return { state: stateOf(lines.slice(begin, begin + LINES_OF_A_STATE)), hit: hit ? Number(hit[1]) : null, ended: last.endsWith(' end') };
    });
  }
}
