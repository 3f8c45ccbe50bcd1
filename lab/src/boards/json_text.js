// JSON as board files have it: with comments, commas before a closing bracket, and the editor's raw data, which has neither
// brackets around its rows nor quotes around names. A fault is told with its line.
import { Refused } from './refused.js';

class Fault extends Error {
  constructor(words, place) {
    super(words);
    this.place = place;
  }
}

const SPACE = /[ \t\n\r]*/y, NUMBER = /-?(?:0|[1-9]\d*)(?:\.\d+)?(?:[eE][-+]?\d+)?/y;
const ESCAPES = { '"': '"', '\\': '\\', '/': '/', b: '\b', f: '\f', n: '\n', r: '\r', t: '\t' };
const CONSTANTS = { null: null, true: true, false: false, NaN, Infinity, '-Infinity': -Infinity };

class Reader {
  constructor(text) {
    Object.assign(this, { text, at: 0 });
  }

  static read(text) {
    const reader = new Reader(text);
    reader.#space();
    const value = reader.#value();
    reader.#space();
    if (reader.at !== text.length) throw new Fault('Extra data', reader.at);
    return value;
  }

  #match(form) {
    form.lastIndex = this.at;
    const found = form.exec(this.text);
    if (found) this.at = form.lastIndex;
    return found?.[0] ?? '';
  }

  #space() { this.#match(SPACE); }

  #value() {
    const first = this.text[this.at];
    if (first === '"') return this.#string();
    if (first === '{') return this.#table();
    if (first === '[') return this.#list();
    for (const [word, value] of Object.entries(CONSTANTS)) {
      if (!this.text.startsWith(word, this.at)) continue;
      this.at += word.length;
      return value;
    }
    const number = this.#match(NUMBER);
    if (!number) throw new Fault('Expecting value', this.at);
    return Number(number);
  }

  #string() {
    const begin = this.at++;
    let said = '';
    for (;;) {
      const letter = this.text[this.at];
      if (letter === undefined) throw new Fault('Unterminated string starting at', begin);
      if (letter < ' ') throw new Fault('Invalid control character at', this.at);
      this.at++;
      if (letter === '"') return said;
      said += letter === '\\' ? this.#escape(begin) : letter;
    }
  }

  #escape(begin) {
    const letter = this.text[this.at];
    if (letter === undefined) throw new Fault('Unterminated string starting at', begin);
    if (letter in ESCAPES) {
      this.at++;
      return ESCAPES[letter];
    }
    const digits = this.text.slice(this.at + 1, this.at + 5);
    if (letter !== 'u') throw new Fault('Invalid \\escape', this.at - 1);
    if (!/^[0-9A-Fa-f]{4}$/.test(digits)) throw new Fault('Invalid \\uXXXX escape', this.at);
    this.at += 5;
    return String.fromCharCode(Number.parseInt(digits, 16));
  }

  #list() {
    const items = [];
    this.at++;
    this.#space();
    if (this.text[this.at] === ']') {
      this.at++;
      return items;
    }
    for (;;) {
      items.push(this.#value());
      this.#space();
      if (this.text[this.at] === ']') break;
      this.#comma();
    }
    this.at++;
    return items;
  }

  #table() {
    const table = Object.create(null);
    this.at++;
    this.#space();
    if (this.text[this.at] === '}') {
      this.at++;
      return table;
    }
    for (;;) {
      if (this.text[this.at] !== '"') throw new Fault('Expecting property name enclosed in double quotes', this.at);
      const name = this.#string();
      this.#space();
      if (this.text[this.at] !== ':') throw new Fault("Expecting ':' delimiter", this.at);
      this.at++;
      this.#space();
      table[name] = this.#value();
      this.#space();
      if (this.text[this.at] === '}') break;
      this.#comma();
    }
    this.at++;
    return table;
  }

  #comma() {
    if (this.text[this.at] !== ',') throw new Fault("Expecting ',' delimiter", this.at);
    this.at++;
    this.#space();
  }
}

// A text in quotes, a comment of either kind, or a comma with nothing but space before the closing bracket.
const PIECES = /"(?:[^"\\\n]|\\.)*"|\/\/[^\n]*|\/\*.*?\*\/|,(?=\s*[\]}])/gs;

const lineAt = (text, place) => text.slice(0, place).split('\n').length;

/** A text without comments and needless commas, and what is told of them. Lines stay as they are. */
function mended(text) {
  const told = [];
  const whole = text.replace(PIECES, (piece, place) => {
    if (piece.startsWith('"')) return piece;
    const what = piece === ',' ? 'a comma before the closing bracket' : 'a comment';
    told.push(`line ${lineAt(text, place)}: ${what}, which JSON doesn't have, is passed over`);
    return piece.replace(/[^\n]/gu, ' ');
  });
  return { whole, told };
}

/** A text with quotes around the names of properties. */
function quoted(text) {
  const parts = text.split(/("(?:[^"\\]|\\[^\n])*")/);
  return parts.map((part, at) => (at % 2 ? part : part.replace(/([{,]\s*)([a-z]\w*)\s*:/g, '$1"$2":'))).join('');
}

/** What a text's JSON says, and what is told of it. */
export function readJson(text) {
  try {
    return { data: Reader.read(text), told: [] };
  } catch (fault) {
    if (!(fault instanceof Fault)) throw fault;
  }
  const { whole, told } = mended(text), plain = quoted(whole), faults = [];
  for (const attempt of [plain, `[${plain}]`]) {
    try {
      return { data: Reader.read(attempt), told };
    } catch (fault) {
      if (!(fault instanceof Fault)) throw fault;
      faults.push({ fault, line: lineAt(attempt, fault.place) });
    }
  }
  // The attempt that came further says what is wrong.
  const { fault, line } = faults[1].fault.place > faults[0].fault.place ? faults[1] : faults[0];
  throw new Refused(`it is no JSON: line ${line}: ${fault.message}`);
}
