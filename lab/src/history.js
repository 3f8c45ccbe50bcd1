// The past of a keyboard that runs: copies of it, and what was handed to it. A state of the past is a copy that goes on from
// the last kept one before it, and is handed the same.

/** Cycles between two copies. */
export const COPIES_APART = 2000;
const KEPT_COPIES = 400;

export class History {
  constructor(keyboard) {
    Object.assign(this, { keyboard, copies: [], handed: [], spare: [], next: 0 });
  }

  /** The keyboard is at this cycle, before its next step. */
  pass(cycle) {
    if (cycle < this.next) return;
    this.next = cycle + COPIES_APART;
    const copy = this.spare.pop();
    if (copy) this.keyboard.copyTo(copy);
    this.copies.push({ cycle, copy: copy ?? this.keyboard.copy() });
    if (this.copies.length <= KEPT_COPIES) return;
    this.spare.push(this.copies.shift().copy);
    const later = this.handed.findIndex(it => it.cycle >= this.copies[0].cycle);
    this.handed.splice(0, later < 0 ? this.handed.length : later);
  }

  /** Something is handed to the keyboard at this cycle: a call that is made of a copy too. */
  note(cycle, call) { this.handed.push({ cycle, call }); }

  /** What `look` says of the keyboard as it was a step before this cycle; or null if that isn't kept. */
  before(cycle, look) {
    let last = null;
    const found = this.#from(cycle - 1, (copy, now) => {
      const isThere = now >= cycle;
      if (!isThere) last = now;
      return isThere;
    }, () => true);
    return found && this.#from(last, (copy, now) => now >= last, look);
  }

  /** Goes on from this cycle step by step, until `isEnd` says yes of the keyboard, and looks at it; or null if the cycle isn't
      kept. */
  on(cycle, isEnd, look) { return this.#from(cycle, (copy, now) => now > cycle && isEnd(copy, now), look); }

  // From the last copy that isn't later than a cycle: that copy first, and then each step.
  #from(cycle, isEnd, look) {
    const kept = this.copies.findLast(it => it.cycle <= cycle);
    if (!kept) return null;
    const copy = kept.copy.copy();
    try {
      if (!isEnd(copy, kept.cycle)) for (const now of this.#goOn(copy, kept.cycle)) if (isEnd(copy, now)) break;
      return look(copy);
    } finally {
      copy.free();
    }
  }

  // The steps of a copy from a cycle on, with what was handed; each answers the cycle after it.
  * #goOn(copy, from) {
    let at = this.handed.findIndex(it => it.cycle >= from), now = from;
    for (;;) {
      let isStep = false;
      for (; at >= 0 && this.handed[at]?.cycle === now && !isStep; at++) {
        this.handed[at].call(copy);
        isStep = copy.cycle() > now;
      }
      if (!isStep) copy.step();
      now = copy.cycle();
      yield now;
    }
  }

  free() {
    for (const { copy } of this.copies) copy.free();
    for (const copy of this.spare) copy.free();
    this.copies = [];
    this.spare = [];
  }
}
