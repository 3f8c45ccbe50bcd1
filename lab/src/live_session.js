// The processor of the keyboard that one types on, step by step: its time is stopped, and goes on by the steps that are asked
// for. Steps back are looks at the past.
import { hex } from './dom.js';
import { FIRST_STAMP } from './times.js';
import { CELLS, partsOf } from './session.js';

const SENDERS = ['keyboard', 'host'];
const BANK = 0x18;

/** The state of a keyboard, as a run of a key file shows it. */
function lookAt(keyboard) {
  const it = keyboard.inside(), cells = Array.from({ length: CELLS }, (_, cell) => keyboard.cell(cell));
  const psw = it.carry << 7 | it.halfCarry << 6 | it.f0 << 5 | it.registerBank << 4 | 8 | it.stack;
  return {
    steps: null, cycles: keyboard.cycle(), counter: it.counter, cells, ...partsOf(psw, cells),
    named: {
      a: hex(it.a), psw: hex(psw), f1: Number(it.f1), mb: Number(it.memoryBank), t: hex(it.t), pre: hex(it.prescaler), tf: Number(it.timerFlag),
      run: { off: 'off', cycles: 'timer' }[it.counts] ?? 'counter', tim: it.timerOn ? 'on' : 'off', svc: Number(it.service), p1: hex(it.p1), p2: hex(it.p2),
    },
  };
}

export class LiveSession {
  constructor(live) {
    this.live = live;
    this.state = lookAt(live.keyboard);
  }

  /** What was said up to now. */
  get log() {
    return this.live.items.filter(item => item.cycle <= this.state.cycles).slice(-LINES).map(item => `${item.cycle - FIRST_STAMP} ${item.words}`);
  }

  /** Steps on, out of the past first, until one of the probes' lines (`arm ..`) is met. */
  go(most, arms) {
    const { live } = this, probes = arms.map(probeOf);
    let made = 0, hit = null;
    const isMet = (keyboard, bytes) => {
      made++;
      hit = probes.find(probe => probe.meets(keyboard, bytes))?.number ?? null;
      return hit !== null;
    };
    if (this.state.cycles < live.cycle) {
      const passed = new Map(live.bytes.map(byte => [byte.end, byte]));
      const isEnd = (copy, now) => isMet(copy, [passed.get(now)].filter(Boolean)) || made === most || now >= live.cycle;
      const state = live.history.on(this.state.cycles, isEnd, lookAt) ?? lookAt(live.keyboard);
      if (hit !== null || made === most) return { state, hit, ended: false };
    }
    let heard = live.bytes.length;
    live.steps(most - made, () => {
      const bytes = live.bytes.slice(heard);
      heard = live.bytes.length;
      return isMet(live.keyboard, bytes);
    });
    return { state: lookAt(live.keyboard), hit, ended: false };
  }

  goOn(most, arms) { return this.go(most, arms); }

  /** The state a step before, or the present one if the past isn't kept so far. */
  back() { return this.live.history.before(this.state.cycles, lookAt) ?? this.state; }

  /** The state now. */
  now() { return lookAt(this.live.keyboard); }
}

const LINES = 100;

/** A probe as `probe` arms it. */
function probeOf(arm) {
  const [, number, first, second] = arm.split(' '), a = Number.parseInt(first, 16), b = Number.parseInt(second, 16);
  const meets = [
    keyboard => keyboard.inside().counter === a,
    keyboard => keyboard.cell(a + (keyboard.inside().registerBank ? BANK : 0)) === b,
    keyboard => keyboard.cell(a) === b,
    (keyboard, bytes) => bytes.some(it => it.sender === SENDERS[a] && it.byte === b),
  ][number];
  return { number: Number(number), meets };
}
