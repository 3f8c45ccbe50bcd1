// Value change dumps, as far as they are drawn and the clock is guessed in them: the signals of one bit. Whether a dump is right
// says the program alone.
import { Recording } from './recording.js';

const LAST_BLANK = 32, HASH = 35, DOLLAR = 36, ZERO_LEVEL = 48, ONE_LEVEL = 49;
const VECTORS = new Set([...'bBrR'].map(it => it.charCodeAt(0)));
// Sections whose words say nothing here.
const SKIPPED = new Set(['$comment', '$date', '$version', '$scope', '$upscope', '$enddefinitions']);
const END = '$end', NO_SIGNALS = [], TEXT = new TextDecoder();
const NS_OF_UNITS = { s: 1e9, ms: 1e6, us: 1e3, ns: 1, ps: 1e-3, fs: 1e-6 };

/** What a dump says, from its bytes. */
export function vcdRecording(bytes) {
  const reader = new DumpReader(bytes);
  while (reader.take()) reader.read();
  reader.end();
  return reader.recording;
}

class DumpReader {
  // `places` has the signals of each code, and `short` those of a code of one character.
  constructor(bytes) {
    Object.assign(this, { bytes, from: 0, to: 0, scale: 1, names: [], places: new Map(), short: [], recording: null, now: 0, levels: null });
  }

  /** Goes to the next word. Whether there is one. */
  take() {
    const { bytes } = this;
    let from = this.to;
    while (from < bytes.length && bytes[from] <= LAST_BLANK) from++;
    let to = from;
    while (to < bytes.length && bytes[to] > LAST_BLANK) to++;
    Object.assign(this, { from, to });
    return to > from;
  }

  // The word from its first character on, or from the second.
  #word(skipped = 0) { return TEXT.decode(this.bytes.subarray(this.from + skipped, this.to)); }

  // The number after the first character. A dump has millions of them, so no text is made of one.
  #number() {
    let number = 0;
    for (let at = this.from + 1; at < this.to; at++) number = 10 * number + this.bytes[at] - ZERO_LEVEL;
    return number;
  }

  // The signals of the code after the first character.
  #signals() {
    const isShort = this.to - this.from === 2;
    return (isShort ? this.short[this.bytes[this.from + 1]] : this.places.get(this.#word(1))) ?? NO_SIGNALS;
  }

  // The words up to `$end`.
  #section() {
    const words = [];
    while (this.take() && this.#word() !== END) words.push(this.#word());
    return words;
  }

  read() {
    const first = this.bytes[this.from];
    if (first === DOLLAR) this.#keyword(this.#word());
    else if (first === HASH) this.#time(this.#number());
    else if (first === ZERO_LEVEL || first === ONE_LEVEL) this.#level(first - ZERO_LEVEL);
    else if (VECTORS.has(first)) this.take();
  }

  #keyword(word) {
    if (SKIPPED.has(word)) this.#section();
    else if (word === '$timescale') {
      const [, number, unit] = /^(\d+)\s*(s|ms|us|ns|ps|fs)$/.exec(this.#section().join(' ')) ?? [null, 1, 'ns'];
      this.scale = Number(number) * NS_OF_UNITS[unit];
    } else if (word === '$var') {
      const [, bits, code, name] = this.#section();
      if (bits !== '1' || name === undefined) return;
      this.places.set(code, [...this.places.get(code) ?? [], this.names.length]);
      if (code.length === 1) this.short[code.charCodeAt(0)] = this.places.get(code);
      this.names.push(name);
    }
  }

  // Both wires are high before their first change, and so is all here.
  #begin() {
    this.recording = new Recording(this.names);
    this.levels = new Uint8Array(this.names.length).fill(1);
  }

  #time(time) {
    if (!this.recording) this.#begin();
    this.recording.sample(this.now, this.levels);
    this.now = time * this.scale;
  }

  #level(level) {
    if (!this.recording) this.#begin();
    for (const place of this.#signals()) if (place < this.levels.length) this.levels[place] = level;
  }

  end() { this.#time(0); }
}
