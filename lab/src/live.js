// The keyboard that runs while one types: it stops at each change of a wire, and makes single steps while bits pass. Its
// queue hands each key over when it can be seen, and writes go in as soon as they may. Both are kept with their stamps, so that
// a session is a key file too.
import { Item, Status } from '../kbd48.mjs';
import { hex } from './dom.js';
import { BOTH, PC_SIDE, beginOf } from './wires.js';
import { COPIES_APART, History } from './history.js';
import { CYCLES_OF_A_MS, CYCLES_OF_A_TICK, FIRST_STAMP } from './times.js';

const KEPT = 40000, TRIMMED = 30000;
const LAST_STAMP = 240_000_000, MOST_EVENTS = 65_536; // of a key file
// An item in the words of the log; what the page itself takes from the buffer of INT 09h isn't said.
const SAYS = {
  [Item.PORT]: byte => `port ${hex(byte)}`, [Item.READ]: byte => `read ${hex(byte)}`, [Item.WORD]: word => `word ${hex(word, 4)}`,
  [Item.BEEP]: () => 'beep', [Item.OVERRUN]: () => 'overrun', [Item.LIGHTS]: lights => `lights ${lights}`,
  [Item.STATUS]: byte => `status ${hex(byte)}`, [Item.OUTPUT]: byte => `output ${hex(byte)}`, [Item.PULSE]: lines => `pulse ${hex(lines, 1)}`,
  [Item.BROKE]: () => 'break', [Item.PAUSE]: () => 'pause', [Item.RESUME]: () => 'resume', [Item.PRINT]: () => 'print',
  [Item.BOOT]: () => 'boot', [Item.SYS_MAKE]: () => 'sysreq make', [Item.SYS_BREAK]: () => 'sysreq break',
};

// Who sent a byte over the wires.
const SENT_BY = { [Item.SENT]: 'keyboard', [Item.GIVEN]: 'host' };

// If no wire has changed for so long, no bit is under way. A wire may be held low for seconds; a side that lets go of it, or
// begins to pull it too, is then looked for once in so many cycles.
const CALM = 96, STRIDE = 12, MOST_OF_A_STEP = 2, CALM_AFTER = 1000 * CYCLES_OF_A_MS; // cycles

// Both sides' pulls as one number: the keyboard's are its low two bits.
const bothSides = ({ keyboard, controller }) => keyboard | controller << PC_SIDE;

export class Live {
  /** `names` has the key of each place. */
  constructor(keyboard, layout, names) {
    Object.assign(this, { keyboard, names, pushed: [], orders: [], events: [], edges: [], bytes: [], items: [] });
    this.up = false;
    this.masked = false;
    this.handedAt = -Infinity;
    /** It rises with all that can be seen: an edge, a byte, a line of the log. */
    this.news = 0;
    keyboard.openLayout(new TextEncoder().encode(layout));
    keyboard.bios(true);
    this.history = new History(keyboard);
    this.cycle = keyboard.cycle();
    Object.assign(this, { levels: BOTH, pulls: 0, changed: this.cycle, stirred: this.cycle, down: new Set() });
    this.onStir = () => {};
    this.onByte = () => {};
    this.onWord = () => {};
  }

  get stamp() { return this.cycle - FIRST_STAMP; }

  /** Whether nothing is under way: no edge and no byte waits to be handed in, no wire is low, and no byte waits to be read. */
  get isQuiet() { return this.levels === BOTH && !this.up && !this.pushed.length && !this.orders.length; }

  /** Whether nothing will be seen for a while: no key is down, and nothing was handed in for a second. */
  get isCalm() { return this.isQuiet && !this.down.size && this.cycle - this.stirred > CALM_AFTER; }

  /** Whether an edge of a key waits, or was handed in so late that the keyboard may not have read it yet. */
  get isUnseen() { return this.pushed.length > 0 || this.cycle - this.handedAt < CYCLES_OF_A_TICK; }

  // Whoever runs this keyboard hears before something is handed in.
  #stir() {
    this.onStir();
    this.stirred = this.cycle;
  }

  /** A key goes down or up, after all edges that wait. */
  press(place, down) {
    this.#stir();
    if (down) this.down.add(place);
    else this.down.delete(place);
    const status = this.keyboard.queueKey(place, down);
    if (status === Status.DONE) this.pushed.push({ place, down });
    else if (status === Status.FULL) this.#say('so many keys wait that this one is left out');
  }

  /** The PC writes a byte, when the input buffer has room. */
  order(port, byte) {
    this.#stir();
    this.orders.push({ port, byte });
  }

  mask(masked) {
    this.masked = masked;
    this.#told(masked ? 'mask' : 'unmask', keyboard => keyboard.bios(!masked));
    this.#say(masked ? 'INT 09h is masked' : 'INT 09h is let through');
  }

  /** Noise turns a bit of the next byte that the keyboard sends: 1 to 8, or 9 for the parity. */
  flip(bit) {
    this.#told(`flip ${bit}`, keyboard => keyboard.flip(bit));
    this.#say(`noise will turn ${bit === 9 ? 'the parity' : `bit ${bit}`} of the next byte from the keyboard`);
  }

  read60() {
    this.#told('read60', keyboard => keyboard.read60());
    this.#drain();
  }

  status() {
    this.#told('status', keyboard => keyboard.status());
    this.#drain();
  }

  /** So many cycles pass, or a few more. */
  advance(cycles) {
    const end = this.cycle + cycles;
    while (this.cycle < end) this.#goOn(Math.min(end - this.cycle, COPIES_APART));
    this.#drain();
  }

  /** So many steps are made, or fewer: up to the first after which `isEnd` says yes. */
  steps(many, isEnd) {
    for (let made = 0; made < many; made++) {
      this.#goOn(1);
      this.#drain();
      if (isEnd()) break;
    }
  }

  // One step; or more of them, for so many cycles, up to the next change of a wire, if nothing is to be handed in.
  #goOn(cycles) {
    const { keyboard, cycle } = this;
    this.history.pass(cycle);
    if (this.orders.length && this.#hand()) return;
    const isBusy = this.levels !== BOTH || this.up || this.orders.length > 0;
    const most = !isBusy ? cycles : cycle - this.changed > CALM ? Math.min(cycles, STRIDE) : 1;
    const said = this.pushed.length ? this.#handEdge() : most <= 1 ? keyboard.step() : keyboard.watch(most);
    this.cycle += keyboard.passed;
    this.#look(cycle);
    if (said === Status.ROSE) this.up = true;
    else if (said !== Status.DONE) throw new Error(`the run ended with status ${said}`);
    else if (this.up && !keyboard.interrupt()) {
      // INT 09h, or somebody, has read a byte.
      this.up = false;
      this.#drain();
    }
  }

  // An event of the host is made in a step of its own.
  #told(words, call) {
    this.#stir();
    const { stamp } = this;
    this.history.note(this.cycle, call);
    const said = call(this.keyboard);
    this.cycle = this.keyboard.cycle();
    this.#look();
    this.events.push({ stamp, words });
    return said;
  }

  // The levels of the wires, and which side pulls which. The last look was at the cycle `before`, if it is given.
  #look(before = this.cycle - 1) {
    const { keyboard, controller } = this.keyboard.pulls(), levels = BOTH & ~(keyboard | controller), pulls = bothSides({ keyboard, controller });
    if (pulls === this.pulls) return;
    let cycle = this.cycle;
    if (levels === this.levels && cycle - before > MOST_OF_A_STEP) {
      // Within a stride: the past says when.
      cycle = this.history.on(before, copy => bothSides(copy.pulls()) === pulls, copy => copy.cycle()) ?? cycle;
    }
    Object.assign(this, { levels, pulls, changed: this.cycle });
    this.news++;
    this.edges.push({ cycle, levels, pulls });
    if (this.edges.length > KEPT) this.edges.splice(0, KEPT - TRIMMED);
  }

  // A byte has passed over the wires, in the step that ends with an edge.
  #passed(cycle, sender, byte) {
    const { edges, bytes } = this, last = edges.findLastIndex(edge => edge.cycle < cycle) + 1;
    this.news++;
    bytes.push({ begin: beginOf(edges, last), end: edges[last]?.cycle ?? cycle, sender, byte });
    if (bytes.length > KEPT) bytes.splice(0, KEPT - TRIMMED);
  }

  // One step, before which the queue hands over the edge that is due. Its status.
  #handEdge() {
    const { keyboard, pushed, cycle, stamp } = this, { status } = keyboard.runKeys(1, true);
    if (keyboard.queued() === pushed.length) return status;
    const { place, down } = pushed.shift();
    this.handedAt = cycle;
    this.history.note(cycle, copy => copy.key(place, down));
    this.events.push({ stamp, words: `${down ? 'press' : 'release'} ${this.names.get(place)}` });
    return status;
  }

  // The next byte that the PC writes, in a step of its own. Whether there was room for it.
  #hand() {
    const [{ port, byte }] = this.orders, { stamp } = this, { cycle } = this;
    if (this.keyboard.write(port, byte) === Status.FULL) return false;
    this.history.note(cycle, copy => copy.write(port, byte));
    this.cycle = this.keyboard.cycle();
    this.#look();
    this.orders.shift();
    this.events.push({ stamp, words: `write${hex(port)} ${hex(byte)}` });
    this.#say(`the PC writes ${hex(byte)} to port ${hex(port)}`);
    return true;
  }

  // What was said since the last time. The program on the PC takes each word.
  #drain() {
    let words = 0;
    try {
      for (const { cycle, kind, value } of this.keyboard.items()) {
        if (SENT_BY[kind]) this.#passed(cycle, SENT_BY[kind], value);
        if (SAYS[kind]) this.#say(SAYS[kind](value), cycle);
        if (kind === Item.PORT) this.onByte(value);
        if (kind !== Item.WORD) continue;
        words++;
        this.onWord(value);
      }
    } catch (error) {
      if (error.status !== Status.LOST) throw error;
      this.#say('more was said than is kept');
    }
    for (; words; words--) this.#told('take', keyboard => keyboard.take());
  }

  #say(words, cycle = this.cycle) {
    this.news++;
    this.items.push({ cycle, words });
    if (this.items.length > KEPT) this.items.splice(0, KEPT - TRIMMED);
  }

  /** What was done so far, as a key file; of a session that is longer than a key file may be, its first part, and what that leaves
      out: { keys, taken, left }, each of the last two with events and with seconds. `left` is null if nothing is left out. */
  keyFile() {
    const { events, stamp } = this, late = events.findIndex(it => it.stamp >= LAST_STAMP), inTime = late < 0 ? events.length : late;
    const many = Math.min(inTime, MOST_EVENTS);
    const end = Math.max(1, Math.min(LAST_STAMP, many < inTime ? events[many].stamp : stamp));
    const keys = [...events.slice(0, many).map(({ stamp: at, words }) => `${at} ${words}`), `${end} end`, ''].join('\n');
    const left = { events: events.length - many, seconds: secondsOf(Math.max(0, stamp - end)) };
    return { keys, taken: { events: many, seconds: secondsOf(end) }, left: left.events || stamp > LAST_STAMP ? left : null };
  }
}

const secondsOf = stamps => stamps / CYCLES_OF_A_MS / 1000;
