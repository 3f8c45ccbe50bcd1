// Tables of samples, as analysers save them. Saleae's Logic writes a time in seconds and a level a channel; sigrok writes a level a
// channel for each sample, and the sample rate in a comment. The rules are those of examples/captured.
import { Refused } from '../boards/refused.js';
import { Recording } from './recording.js';

const RATE = /samplerate:\s*(\d+\.?\d*|\.\d+)\s*([kmg]?hz)/i, CHANNEL_NAMES = /channels[^:]*:\s*(.+)/i;
const HERTZ = { hz: 1, khz: 1_000, mhz: 1_000_000, ghz: 1_000_000_000 };
const SECONDS = /^\s*[+-]?(\d+\.?\d*|\.\d+)(e[+-]?\d+)?\s*$/i;
const NS_OF_A_SECOND = 1_000_000_000, LATEST_TIME = 50_000 * NS_OF_A_SECOND;
const NEW_LINE = 10, RETURN = 13, COMMA = 44, ZERO_DIGIT = 48, ONE_DIGIT = 49, SEMICOLON = 59;
const ORDER_MARK = [0xEF, 0xBB, 0xBF];

/** What a table says, from its bytes. */
export function csvRecording(bytes) {
  const table = new Table(bytes), isOfSigrok = table.comments.length > 0;
  return isOfSigrok ? ofSigrok(table) : ofSaleae(table);
}

class Table {
  constructor(bytes) {
    const from = ORDER_MARK.every((it, at) => bytes[at] === it) ? ORDER_MARK.length : 0;
    Object.assign(this, { bytes, next: from, line: 0, comments: [] });
    for (let at = bytes.indexOf(SEMICOLON, from); at >= 0; at = bytes.indexOf(SEMICOLON, at + 1)) {
      if (at === from || bytes[at - 1] === NEW_LINE) this.comments.push(this.#text(at, this.#endOf(at)));
    }
  }

  #endOf(from) {
    const end = this.bytes.indexOf(NEW_LINE, from);
    return end < 0 ? this.bytes.length : end;
  }

  #text(from, end) {
    try {
      return new TextDecoder('utf-8', { fatal: true, ignoreBOM: true }).decode(this.bytes.subarray(from, end)).replace(/\r$/, '');
    } catch {
      throw new Refused(`line ${this.line}: it is no UTF-8 text`);
    }
  }

  /** The next line that is neither empty nor a comment, { from, end }, without what ends it; or null. */
  take() {
    const { bytes } = this;
    while (this.next < bytes.length) {
      const from = this.next, end = this.#endOf(from);
      this.next = end + 1;
      this.line++;
      const last = bytes[end - 1] === RETURN && end > from ? end - 1 : end;
      if (last > from && bytes[from] !== SEMICOLON) return { from, end: last };
    }
    return null;
  }

  /** The fields of a line. */
  fields({ from, end }) { return fieldsOf(this.#text(from, end)); }

  /** Reads the levels of a line, from the place `at` on, before which it has `more` fields. It refuses another number of fields than
      `first` says, and a field that is no level. */
  levels(row, at, levels, { more, first }) {
    if (this.#plainLevels(row, at, levels)) return;
    const fields = this.fields(row), wanted = levels.length + more;
    if (fields.length !== wanted) throw new Refused(`line ${this.line}: ${fields.length} fields, and ${first} ${wanted}`);
    fields.slice(more).forEach((field, n) => { levels[n] = levelOf(field, this.line); });
  }

  // Nearly all lines have digits and commas alone, so these are read without making texts. Whether this line is one.
  #plainLevels({ end }, at, levels) {
    const { bytes } = this;
    if (end - at !== 2 * levels.length - 1) return false;
    for (let n = 0; n < levels.length; n++) {
      const digit = bytes[at + 2 * n];
      if (digit !== ZERO_DIGIT && digit !== ONE_DIGIT) return false;
      if (n > 0 && bytes[at + 2 * n - 1] !== COMMA) return false;
      levels[n] = digit - ZERO_DIGIT;
    }
    return true;
  }
}

/** The fields of a line, which may be in quotes. */
function fieldsOf(text) {
  if (!text.includes('"')) return text.split(',');
  const fieldOf = ([, quoted, rest, plain]) => (quoted === undefined ? plain : quoted.replaceAll('""', '"') + rest);
  return Array.from(text.matchAll(/(?:^|,)(?:"((?:[^"]|"")*)"([^,]*)|([^,]*))/g), fieldOf);
}

function levelOf(field, line) {
  const text = field.trim();
  if (text !== '0' && text !== '1') throw new Refused(`line ${line}: '${text}' is no level, which is 0 or 1`);
  return Number(text);
}

function ofSaleae(table) {
  const top = table.take();
  if (!top) throw new Refused('the file has no samples');
  const head = table.fields(top), recording = new Recording(head.slice(1).map(it => it.trim()));
  const levels = new Uint8Array(head.length - 1), form = { more: 1, first: `line ${table.line} has` };
  for (let row; (row = table.take()) !== null;) {
    const comma = table.bytes.subarray(row.from, row.end).indexOf(COMMA), end = comma < 0 ? row.end : row.from + comma;
    table.levels(row, end + 1, levels, form);
    const [seconds] = table.fields({ from: row.from, end });
    if (!SECONDS.test(seconds)) throw new Refused(`line ${table.line}: '${seconds}' is no time in seconds`);
    recording.sample(wholeTime(Number(seconds) * NS_OF_A_SECOND, table.line), levels);
  }
  return withSamples(recording);
}

function ofSigrok(table) {
  const said = table.comments.map(it => RATE.exec(it)).find(Boolean), rate = said ? Number(said[1]) * HERTZ[said[2].toLowerCase()] : 0;
  if (rate < 1) throw new Refused('no comment says the sample rate: sigrok writes one, \'; Samplerate: 1 MHz\'');
  let row = table.take();
  if (row && !/^\s*[01]*\s*$/.test(table.fields(row).join(''))) row = table.take();
  if (!row) throw new Refused('the file has no samples');
  const levels = new Uint8Array(table.fields(row).length), form = { more: 0, first: 'the first sample has' };
  const recording = new Recording(namesOfSigrok(table.comments, levels.length));
  for (let place = 0; row !== null; row = table.take(), place++) {
    table.levels(row, row.from, levels, form);
    recording.sample(wholeTime(place * NS_OF_A_SECOND / rate, table.line), levels);
  }
  return withSamples(recording);
}

/** The names of so many channels: those that a comment says, if it says as many. */
function namesOfSigrok(comments, many) {
  const said = comments.map(it => CHANNEL_NAMES.exec(it)?.[1]).find(Boolean) ?? '', names = said.split(',').map(it => it.trim()).filter(Boolean);
  return names.length === many ? names : Array.from({ length: many }, (_, at) => `D${at}`);
}

function withSamples(recording) {
  if (!recording.times.length) throw new Refused('the file has no samples');
  return recording;
}

/** A time as a whole number of nanoseconds, which fits into a dump: the nearest one, and of two that are equally near the even one. */
function wholeTime(time, line) {
  if (Math.abs(time) >= LATEST_TIME) throw new Refused(`line ${line}: its time is 50000 seconds or more`);
  const nearest = Math.round(time);
  return Math.abs(time % 1) === 0.5 && nearest % 2 !== 0 ? nearest - 1 : nearest;
}
