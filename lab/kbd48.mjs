// The keyboard of the IBM PC/AT and the program kbd48, for Node and browsers. Both are WebAssembly modules that `lab/build`
// makes of the proved crates; this file only passes bytes in and out. `kbd48.d.ts` has the types.

export const Status = Object.freeze({
  DONE: 0, NOT_OPEN: 1, NO_MEMORY: 2, BAD_TEXT: 3, TOO_LONG: 4, NO_SUCH_PLACE: 5, NO_SUCH_PORT: 6, FULL: 7, STUCK: 8, EARLY: 9,
  OVER: 10, NO_WORD: 11, ROSE: 12, NO_SUCH_CELL: 13, NOTHING_SAID: 14, LOST: 15, REPEATED: 16, KEY_DUE: 17, NO_SUCH_KEY: 18,
  NO_SUCH_BIT: 19, BAD_SIZE: 20, NOT_SAVED: 21, OTHER_VERSION: 22, BAD_STATE: 23,
});

/** What `runTo` may be asked to stop for: a rise of the interrupt line, something said, a wire that changed, a value of the program counter. */
export const Stop = Object.freeze({ RISE: 1, ITEM: 2, WIRES: 4, COUNTER: 8 });

/** The program counter at which a tick of a layout's firmware begins. */
export const TICK = 0x007;

/** What happened: what the log says, item by item, and the bytes that the keyboard sent over the wires, or was given. */
export const Item = Object.freeze({
  PORT: 0, READ: 1, WORD: 2, BEEP: 3, OVERRUN: 4, LIGHTS: 5, TAKEN: 6, TAKEN_NONE: 7, STATUS: 8, OUTPUT: 9, PULSE: 10, BROKE: 11,
  PAUSE: 12, RESUME: 13, PRINT: 14, BOOT: 15, SYS_MAKE: 16, SYS_BREAK: 17, SENT: 18, GIVEN: 19,
});

const STATUS_TEXTS = [
  'it was done', 'the keyboard is not open', 'there is no memory left', 'the text has a fault', 'the text is too long',
  'the matrix has the places 0 to 95', 'the controller has the ports 60h and 64h', 'there is no room',
  'the processor is at a byte that begins no instruction', 'the processor stuck before stamp 0',
  'the count of cycles is at its end', 'there is no word', 'the interrupt line rose', 'data memory has the cells 0 to 127',
  'nothing was said', 'more was said than is kept', 'the key is so already', 'the next edge is due', 'no key has this name',
  'noise turns round the bits 1 to 9 of a frame', 'that is not the size of a saved keyboard or queue',
  'these bytes are no saved keyboard or queue', 'this was saved in another version', 'no keyboard or queue is in such a state',
];

/** A call that was refused. `position` and `number` say which rule a text breaks, and at which entry or line. */
export class Kbd48Error extends Error {
  constructor(status, position = 0, number = 0) {
    super(STATUS_TEXTS[status] ?? `status ${status}`);
    Object.assign(this, { name: 'Kbd48Error', status, position, number });
  }
}

/** The module trapped, and is dropped: no later call is made of it. */
export class Trapped extends Error {
  constructor(cause) {
    super(`the module trapped and was dropped: ${cause.message}`, { cause });
    this.name = 'Trapped';
  }
}

// A module with its memory. Pointers are BigInts for its calls, and numbers for views.
class Machine {
  constructor(exports) {
    this.exports = exports;
    this.buffer = null;
  }

  // The memory moves when it grows.
  get view() {
    if (!this.exports) throw new Trapped(new Error('an earlier call trapped'));
    if (this.buffer !== this.exports.memory.buffer) {
      this.buffer = this.exports.memory.buffer;
      this.cells = new DataView(this.buffer);
    }
    return this.cells;
  }

  call(name, ...words) {
    if (!this.exports) throw new Trapped(new Error('an earlier call trapped'));
    try {
      return this.exports[name](...words);
    } catch (cause) {
      this.exports = null;
      throw new Trapped(cause);
    }
  }

  take(size) {
    const at = this.call('page_take', BigInt(size));
    if (at === 0n) throw new Kbd48Error(Status.NO_MEMORY);
    return at;
  }

  give(at) {
    this.call('page_give', at);
  }

  put(bytes, at) {
    new Uint8Array(this.view.buffer, at, bytes.length).set(bytes);
  }
}

/** Starts a module, given as bytes, which are compiled first, or compiled. */
async function started(module) {
  const made = await WebAssembly.instantiate(module, {});
  return new Machine((made.instance ?? made).exports);
}

// Where the values lie that calls pass by pointer, in one block. The last is the keyboard's queue, a `kbd48_keys`.
const PLACES = {
  handle: 0, fault: 8, passed: 16, spot: 24, byte: 28, word: 30, one: 32, two: 33, cycle: 40, item: 48, shown: 64, queue: 96,
};
const SAVED_SIZE = 3077, SAVED_QUEUE_SIZE = 1629, QUEUE_SIZE = 2672, PLACES_SIZE = PLACES.queue + QUEUE_SIZE;
const ONE = 1n, ANY_NUMBER = (1n << 64n) - 1n;
const COUNTS = ['off', 'cycles', 'falls of T1'];

/** One keyboard, as `c/kbd48.h` has it. Time is counted in cycles of 2.5 microseconds. */
export class Keyboard {
  static async load(module) {
    return new Keyboard(await started(module));
  }

  /** A keyboard that isn't open yet, in the same module as another. */
  constructor(machine) {
    this.machine = machine;
    const at = machine.take(PLACES_SIZE);
    this.base = Number(at);
    this.to = Object.fromEntries(Object.entries(PLACES).map(([name, offset]) => [name, at + BigInt(offset)]));
    machine.view.setBigUint64(this.base + PLACES.handle, 0n, true);
    this.#queue().fill(0);
  }

  #byte(place) {
    return this.machine.view.getUint8(this.base + place);
  }

  #short(place) {
    return this.machine.view.getUint16(this.base + place, true);
  }

  #queue() {
    return new Uint8Array(this.machine.view.buffer, this.base + PLACES.queue, QUEUE_SIZE);
  }

  #done(status) {
    if (status !== Status.DONE) throw new Kbd48Error(status);
  }

  // DONE, or one of the others that the caller expects.
  #expected(status, ...others) {
    if (!others.includes(status)) this.#done(status);
    return status;
  }

  // The status of a call that reads texts: each goes in as a pointer and a length, before the other words.
  #read(name, texts, ...words) {
    const { machine } = this, at = machine.take(texts.reduce((sum, text) => sum + text.length, 1)), places = [];
    let to = at;
    for (const text of texts) {
      machine.put(text, Number(to));
      places.push(to, BigInt(text.length));
      to += BigInt(text.length);
    }
    const status = machine.call(name, ...places, ...words);
    machine.give(at);
    return status;
  }

  // A keyboard that was opened begins with an empty queue.
  #opened(status) {
    this.#done(status);
    this.#queue().fill(0);
  }

  #open(name, text) {
    const status = this.#read(name, [text], this.to.handle, this.to.fault);
    if (status === Status.BAD_TEXT) {
      const { view } = this.machine;
      throw new Kbd48Error(status, view.getUint32(this.base + PLACES.fault, true), view.getUint32(this.base + PLACES.fault + 4, true));
    }
    this.#opened(status);
  }

  /** Opens a keyboard of a layout, the bytes of a TOML text. It is at stamp 0 then. */
  openLayout(text) { this.#open('kbd48_open_layout', text); }

  /** The same with a program as Intel HEX. */
  openHex(text) { this.#open('kbd48_open_hex', text); }

  /** The same with the sample layout, us84. */
  openSample() { this.#opened(this.machine.call('kbd48_open_sample', this.to.handle)); }

  /** Opens a keyboard of a layout and runs it until its power-on test is over: its AA can be read. */
  openReadyLayout(text) { this.#open('kbd48_open_ready_layout', text); }

  /** The same with a program as Intel HEX. */
  openReadyHex(text) { this.#open('kbd48_open_ready_hex', text); }

  /** The same with the sample layout, us84. */
  openReadySample() { this.#opened(this.machine.call('kbd48_open_ready_sample', this.to.handle)); }

  /** Switches the keyboard off and on again, with the program that it has: it is at stamp 0, with an empty queue. At power-on
      data memory, A and T hold this byte. */
  powerOn(fill = 0) { this.#opened(this.machine.call('kbd48_power_on', this.to.handle, fill)); }

  /** The place of a key by its name, such as `lshift`, in the bytes of a layout's text. The keyboard needn't be open. */
  layoutKey(text, name) { return this.#named('kbd48_layout_key', text, new TextEncoder().encode(name)); }

  /** The same in the sample layout. */
  sampleKey(name) { return this.#named('kbd48_sample_key', new TextEncoder().encode(name)); }

  #named(call, ...texts) {
    this.#done(this.#read(call, texts, this.to.byte));
    return this.#byte(PLACES.byte);
  }

  /** 10,000 times the first part of the library's version, 100 times the second, and the third. */
  version() { return this.machine.call('kbd48_version'); }

  close() { this.#done(this.machine.call('kbd48_close', this.to.handle)); }

  /** Closes it, if it is open, and gives its memory back; it is used no more. */
  free() {
    this.machine.call('kbd48_close', this.to.handle);
    this.machine.give(this.to.handle);
    this.machine = null;
  }

  /** A second keyboard in the same state, with the same edges in its queue: the same calls give the same answers. `free`
      gives its memory back. */
  copy() {
    const other = new Keyboard(this.machine);
    try {
      this.copyTo(other);
    } catch (error) {
      other.free();
      throw error;
    }
    return other;
  }

  /** The same at a keyboard of the same module, which is closed before. */
  copyTo(other) {
    if (other.machine !== this.machine) throw new TypeError('the two keyboards are in different modules');
    this.#done(this.machine.call('kbd48_copy', this.to.handle, other.to.handle));
    other.#queue().set(this.#queue());
  }

  /** The state as 3,077 bytes, which `load` reads. The edges that wait in the queue are not among them: `saveQueue` has these. */
  save() { return this.#saved('kbd48_save', this.to.handle, SAVED_SIZE); }

  /** The queue as 1,629 bytes, the same for every form of the library, which `loadQueue` reads. */
  saveQueue() { return this.#saved('kbd48_save_keys', this.to.queue, SAVED_QUEUE_SIZE); }

  // The bytes that a call writes of the handle or of the queue.
  #saved(call, of, size) {
    const { machine } = this, at = machine.take(size);
    const status = machine.call(call, of, at, BigInt(size));
    const bytes = new Uint8Array(machine.view.buffer, Number(at), size).slice();
    machine.give(at);
    this.#done(status);
    return bytes;
  }

  /** Opens a keyboard in the state of these bytes, with an empty queue. Other bytes are refused, and it stays as it was. */
  load(bytes) { this.#opened(this.#loaded('kbd48_load', this.to.handle, bytes)); }

  /** Puts the queue of these bytes in the place of this keyboard's. Other bytes are refused, and it stays as it was. */
  loadQueue(bytes) { this.#done(this.#loaded('kbd48_load_keys', this.to.queue, bytes)); }

  // The bytes go in after the handle, or after the queue.
  #loaded(call, to, bytes) {
    const { machine } = this, at = machine.take(bytes.length + 1);
    machine.put(bytes, Number(at));
    const status = machine.call(call, to, at, BigInt(bytes.length));
    machine.give(at);
    return status;
  }

  /** A key goes down or up. The status: DONE, or FULL where four edges wait. */
  key(place, down) { return this.machine.call('kbd48_key', this.to.handle, place, down ? 1 : 0); }

  /** Runs for so many cycles, or, if watched, until the interrupt line rises. The status. */
  run(cycles, watched = false) {
    return this.machine.call('kbd48_run', this.to.handle, BigInt(cycles), watched ? 1 : 0, this.to.passed, this.to.spot);
  }

  /** One step, which ends with ROSE if the interrupt line rose. */
  step() { return this.machine.call('kbd48_run', this.to.handle, ONE, 1, this.to.passed, this.to.spot); }

  /** Runs until a step does what `mask` asks for (Stop), or to a limit of cycles or steps. `at` is the counter of Stop.COUNTER.
      Returns the status, DONE or STUCK; what the last step did of the mask, 0 if a limit ended the run; and how many cycles
      passed. */
  runTo(mask, cycles, { steps = ANY_NUMBER, at = 0 } = {}) {
    const { machine, to } = this, limits = [BigInt(cycles), BigInt(steps)];
    const status = this.#expected(machine.call('kbd48_run_to', to.handle, mask, at, ...limits, to.byte, to.passed, to.spot), Status.STUCK);
    return { status, met: this.#byte(PLACES.byte), passed: this.passed };
  }

  /** Runs until a wire changes its level, the interrupt line rises, or so many cycles have passed. The status. */
  watch(cycles) {
    const { status, met } = this.runTo(Stop.RISE | Stop.WIRES, cycles);
    return met & Stop.RISE ? Status.ROSE : status;
  }

  /** A key goes down or up now, or at a later cycle, after all edges that wait in this keyboard's queue. The status: DONE,
      REPEATED if the key is so already, or FULL if it goes down and 64 edges wait. */
  queueKey(place, down, cycle = this.cycle()) {
    return this.#expected(this.machine.call('kbd48_queue_key', this.to.queue, BigInt(cycle), place, down ? 1 : 0), Status.REPEATED, Status.FULL);
  }

  /** Each key that is down goes up now, or at a later cycle, after all edges that wait. */
  releaseAll(cycle = this.cycle()) { this.#done(this.machine.call('kbd48_release_all', this.to.queue, BigInt(cycle))); }

  /** How many edges wait in the queue, at most 160. */
  queued() {
    this.#done(this.machine.call('kbd48_queued', this.to.queue, this.to.byte));
    return this.#byte(PLACES.byte);
  }

  /** The queue as 2,672 bytes, to be kept beside what is kept of the keyboard: an empty one takes all keys for up. Set it to what it
      was. */
  get queue() { return this.#queue().slice(); }

  set queue(bytes) {
    if (bytes.length !== QUEUE_SIZE) throw new RangeError(`a queue has ${QUEUE_SIZE} bytes`);
    this.#queue().set(bytes);
  }

  /** Runs as `run` does, and hands over each edge of the queue when it is due. Returns the status, DONE, ROSE or STUCK; how
      many cycles passed; and how often the interrupt line rose. */
  runKeys(cycles, watched = false) {
    const { machine, to } = this;
    let status, passed = 0, rises = 0;
    do {
      const left = BigInt(cycles) - BigInt(passed);
      status = this.#expected(machine.call('kbd48_run_keys', to.handle, to.queue, left, watched ? 1 : 0, to.passed, to.spot),
        Status.ROSE, Status.STUCK, Status.KEY_DUE);
      passed += this.passed;
      rises += this.rises();
    } while (status === Status.KEY_DUE);
    machine.view.setBigUint64(this.base + PLACES.passed, BigInt(passed), true);
    return { status, passed, rises };
  }

  /** How many cycles the last run took. */
  get passed() { return Number(this.machine.view.getBigUint64(this.base + PLACES.passed, true)); }

  /** Where the processor is stuck, if the last run said STUCK. */
  get stuck() {
    return { counter: this.#short(PLACES.spot), byte: this.#byte(PLACES.spot + 2) };
  }

  /** The host writes port 0x60 or 0x64. The status: DONE, or FULL. */
  write(port, byte) { return this.machine.call('kbd48_write', this.to.handle, port, byte); }

  read60() {
    this.#done(this.machine.call('kbd48_read60', this.to.handle, this.to.byte));
    return this.#byte(PLACES.byte);
  }

  status() {
    this.#done(this.machine.call('kbd48_status', this.to.handle, this.to.byte));
    return this.#byte(PLACES.byte);
  }

  /** INT 09h reads each byte, if on; at first the caller is the host. */
  bios(on) { this.#done(this.machine.call('kbd48_bios', this.to.handle, on ? 1 : 0)); }

  /** Noise turns round a bit of the next frame that the keyboard begins: a data bit, 1 to 8, or the parity, 9. One step. */
  flip(bit) { this.#done(this.machine.call('kbd48_flip', this.to.handle, bit)); }

  /** The next word of the BIOS buffer, or null if there is none. */
  take() {
    const status = this.machine.call('kbd48_take', this.to.handle, this.to.word);
    if (status === Status.NO_WORD) return null;
    this.#done(status);
    return this.#short(PLACES.word);
  }

  /** What happened next, { cycle, kind, value }, or null if all was handed out. After the 64th of more an error says LOST. */
  next() {
    const status = this.machine.call('kbd48_next', this.to.handle, this.to.item);
    if (status === Status.NOTHING_SAID) return null;
    this.#done(status);
    return {
      cycle: Number(this.machine.view.getBigUint64(this.base + PLACES.item, true)), kind: this.#byte(PLACES.item + 8),
      value: this.#short(PLACES.item + 10),
    };
  }

  /** The items that weren't handed out yet. */
  * items() {
    for (let item; (item = this.next()) !== null;) yield item;
  }

  // The calls from here on make no step and change nothing.

  interrupt() {
    this.#done(this.machine.call('kbd48_interrupt', this.to.handle, this.to.one));
    return this.#byte(PLACES.one) !== 0;
  }

  /** 1 Scroll Lock, 2 Num Lock, 4 Caps Lock. */
  lights() {
    this.#done(this.machine.call('kbd48_lights', this.to.handle, this.to.byte));
    return this.#byte(PLACES.byte);
  }

  /** The two wires: 1 if the clock is high, 2 if data is. */
  wires() {
    this.#done(this.machine.call('kbd48_wires', this.to.handle, this.to.one, this.to.two));
    return this.#byte(PLACES.one) | this.#byte(PLACES.two) << 1;
  }

  /** How often the interrupt line rose in the last run, which may be of no step, or in the last call of the host's that wasn't refused. */
  rises() { return this.#long('kbd48_rises'); }

  /** How many items were lost and not reported yet. */
  lost() { return this.#long('kbd48_lost'); }

  /** The cycles since power-on; stamp 0 is cycle 4,096. */
  cycle() { return this.#long('kbd48_cycle'); }

  /** The controller's registers. */
  look() {
    this.#done(this.machine.call('kbd48_look', this.to.handle, this.to.shown));
    const [status, output, commandByte, outputPort] = this.#shown(4);
    return { status, output, commandByte, outputPort };
  }

  /** How many edges of keys wait for a step, and how many words in the buffer of INT 09h. */
  waiting() {
    this.#done(this.machine.call('kbd48_waiting', this.to.handle, this.to.one, this.to.two));
    return { edges: this.#byte(PLACES.one), words: this.#byte(PLACES.two) };
  }

  /** The keys of a column, 0 to 11: bit k is row k, 0 for down. */
  column(number) {
    this.#done(this.machine.call('kbd48_column', this.to.handle, number, this.to.byte));
    return this.#byte(PLACES.byte);
  }

  /** The keyboard's processor. */
  inside() {
    this.#done(this.machine.call('kbd48_inside', this.to.handle, this.to.shown));
    const [, , byte, a, carry, halfCarry, f0, f1, registerBank, memoryBank, stack, t, prescaler, counts, timerFlag, externalOn, timerOn,
      request, service, p1, p2, bus] = this.#shown(22), yes = bit => bit !== 0;
    return {
      counter: this.#short(PLACES.shown), byte, a, carry: yes(carry), halfCarry: yes(halfCarry), f0: yes(f0), f1: yes(f1),
      registerBank: yes(registerBank), memoryBank: yes(memoryBank), stack, t, prescaler, counts: COUNTS[counts],
      timerFlag: yes(timerFlag), externalOn: yes(externalOn), timerOn: yes(timerOn), request: yes(request), service: yes(service),
      p1, p2, bus,
    };
  }

  /** Which wires the keyboard pulls and which the controller pulls, both at this moment: 1 the clock, 2 data. */
  pulls() {
    this.#done(this.machine.call('kbd48_pulls', this.to.handle, this.to.one, this.to.two));
    return { keyboard: this.#byte(PLACES.one), controller: this.#byte(PLACES.two) };
  }

  /** A byte of its data memory, 0 to 127. */
  cell(number) {
    this.#done(this.machine.call('kbd48_cell', this.to.handle, number, this.to.byte));
    return this.#byte(PLACES.byte);
  }

  #long(name) {
    this.#done(this.machine.call(name, this.to.handle, this.to.cycle));
    return Number(this.machine.view.getBigUint64(this.base + PLACES.cycle, true));
  }

  #shown(many) {
    return new Uint8Array(this.machine.view.buffer, this.base + PLACES.shown, many);
  }
}

const HELP_SIZE = 4;

/** Help for two BIOSes. What the guest sees with it isn't the machine's. With `seabios` the byte after F0 is replaced by EF; with
    `bochs` the self-test after FF takes the guest no time. `parameter` is whether the controller awaits a parameter at port 60h,
    and `last` the last byte that the keyboard was given, or 0. Keep one for each keyboard, and all four beside a save. */
export class Help {
  #machine;

  /** Its calls are those of the keyboard's module. The keyboard needn't be open. */
  constructor(keyboard, { seabios = false, bochs = false, parameter = false, last = 0 } = {}) {
    this.#machine = keyboard.machine;
    Object.assign(this, { seabios, bochs, parameter, last });
  }

  /** The byte to write in place of the guest's. Call it before each write for the guest. If that write returns FULL and you drop
      the byte, assign what this had before. */
  write(port, byte) { return this.#said('kbd48_help_write', port, byte); }

  /** Whether to run the keyboard on, watched, until the line rises. Call it after the guest has read this byte from port 60h. */
  read(byte) { return this.#said('kbd48_help_read', byte) !== 0; }

  // The struct is in the module's memory for this call alone.
  #said(name, ...words) {
    const machine = this.#machine, at = machine.take(HELP_SIZE);
    machine.put([this.seabios, this.bochs, this.parameter, this.last], Number(at));
    const said = machine.call(name, at, ...words), inside = new Uint8Array(machine.view.buffer, Number(at), HELP_SIZE);
    Object.assign(this, { parameter: inside[2] !== 0, last: inside[3] });
    machine.give(at);
    return said;
  }
}

// The statuses of kbd48_call, and the room for a text: it grows while the program says that its sink is full.
const CALL_DONE = 0, CALL_NO_MEMORY = 2;
const EXIT_WRITE = 6;
const FIRST_ROOM = 1 << 20, MOST_ROOM = 1 << 28;
const PIECE = 16, SAID = 16;

/** The whole program: each command of kbd48, over files in memory. */
export class Program {
  static async load(module) {
    return new Program(await started(module));
  }

  constructor(machine) {
    this.machine = machine;
  }

  /** Runs the program: `words` are strings, `files` maps names to bytes or strings. Its exit status and its text, whose bytes are
      at most 256 MiB: exit 6 says that it would be longer. */
  run(words, files = {}) {
    for (let room = FIRST_ROOM; ; room *= 4) {
      const said = this.#run(words, files, room);
      if (said.exit !== EXIT_WRITE || room >= MOST_ROOM) return said;
    }
  }

  #run(words, files, room) {
    const coder = new TextEncoder(), parts = [], pieces = [];
    let length = 0;
    const piece = part => {
      const bytes = typeof part === 'string' ? coder.encode(part) : part;
      parts.push(bytes);
      pieces.push(BigInt(length), BigInt(length += bytes.length));
    };
    words.forEach(piece);
    const names = Object.entries(files);
    for (const [name, file] of names) {
      piece(name);
      piece(file);
    }
    const table = pieces.length * 8, { machine } = this;
    const at = machine.take(table + SAID + length + room), base = Number(at);
    new BigUint64Array(machine.view.buffer, base, pieces.length).set(pieces);
    let to = base + table + SAID;
    for (const part of parts) {
      machine.put(part, to);
      to += part.length;
    }
    const said = at + BigInt(table), bytes = said + BigInt(SAID), text = bytes + BigInt(length);
    const status = machine.call('kbd48_call', bytes, BigInt(length), at, BigInt(words.length),
      at + BigInt(PIECE * words.length), BigInt(names.length), text, BigInt(room), said);
    const many = Number(machine.view.getBigUint64(base + table, true)), exit = machine.view.getUint8(base + table + 8);
    const out = status === CALL_DONE ? new Uint8Array(machine.view.buffer, Number(text), many).slice() : new Uint8Array();
    machine.give(at);
    if (status === CALL_NO_MEMORY) throw new Kbd48Error(Status.NO_MEMORY);
    if (status !== CALL_DONE) throw new Error('a word or a name of a file is no UTF-8 text');
    return { exit, bytes: out, get text() { return new TextDecoder().decode(out); } };
  }
}
