// Reads the worked rows of tests/rows as row_files.py does: what the program is called with, and what it must answer.
// tests/README.md has the form of these files. Bytes are strings here, with a character from 0 to 255 for each.
import { readFileSync } from 'node:fs';

const NAME = '[a-z][a-z0-9]*', ANY = '...', CYCLES_A_TICK = 2048;
const PLACEHOLDER = /\{([A-Z]+)\}/g, FREE = /<([A-Z]+|\.\.\.)>/g, ESCAPE = /\\(x[0-9A-Fa-f]{2}|[nrt0\\]|$)|\\/g;
const ESCAPED = { n: '\n', r: '\r', t: '\t', 0: '\0', '\\': '\\', '': '' };
const SHOWN = 400, BEGIN = 250, END = 120;

/** A line of a file of rows that has no meaning. */
export class RowFault extends Error {
  constructor(path, line, why) {
    super(`${path}:${line}: ${why}`);
    this.name = 'RowFault';
  }
}

/** The bytes of a text in UTF-8. */
export const bytesOf = text => Buffer.from(text).toString('latin1');

/** The bytes of a text: \n, \r, \t, \0, \\ and \xHH are one byte each, and a \ at the end of a line is nothing. */
export function unescaped(text) {
  let bytes = '', at = 0;
  for (const found of text.matchAll(ESCAPE)) {
    const code = found[1];
    if (code === undefined) throw new SyntaxError(`no escape begins with ${text.slice(found.index, found.index + 2)}`);
    bytes += bytesOf(text.slice(at, found.index)) + (code[0] === 'x' ? String.fromCharCode(parseInt(code.slice(1), 16)) : ESCAPED[code]);
    at = found.index + found[0].length;
  }
  return bytes + bytesOf(text.slice(at));
}

/** Whether a line's last character is a \ that escapes the line's end. */
const endsOpen = line => /\\*$/.exec(line)[0].length % 2 === 1;

/** The bytes of these lines, each with its line feed, but where its end is escaped. */
export const textOf = lines => lines.map(line => unescaped(line) + (endsOpen(line) ? '' : '\n')).join('');

/** A text for a line of a report: one line, and not too long. */
export function shown(text) {
  const line = JSON.stringify(text);
  return line.length <= SHOWN ? line : `${line.slice(0, BEGIN)} .. ${line.slice(-END)}`;
}

const literal = text => text.replace(/[\\^$.*+?()[\]{}|]/g, '\\$&');
const linesOf = text => text.match(/[^\r\n]*(?:\r\n|\n|\r)|[^\r\n]+$/g) ?? [];

/** The text with the number of its tick in place of the stamp that begins each line. */
function stampsAsTicks(text) {
  return linesOf(text).map(line => line.replace(/^-?[0-9]+(?= |$)/, stamp => Math.floor(Number(stamp) / CYCLES_A_TICK))).join('');
}

/** The exit status, and the text on standard output. A line ... of it is any lines, <...> is any part of a line, and <N> any
    decimal number, the same wherever N is written. `onlyFrom` has the lines that begin so, and no others. */
export class Expected {
  constructor(status, lines, inTicks = false, onlyFrom = []) {
    Object.assign(this, { status, lines, inTicks, onlyFrom });
  }

  /** The texts that fit, as a regular expression. */
  pattern() {
    const named = new Set();
    const number = name => named.has(name) ? `\\k<${name}>` : (named.add(name), `(?<${name}>[0-9]+)`);
    const parts = this.lines.map(line => {
      if (line === ANY) return '(?:[^\\n]*\\n)*?';
      let part = '', at = 0;
      for (const found of line.matchAll(FREE)) {
        part += literal(unescaped(line.slice(at, found.index))) + (found[1] === ANY ? '[^\\n]*' : number(found[1]));
        at = found.index + found[0].length;
      }
      return part + literal(textOf([line.slice(at)]));
    });
    return new RegExp(`^(?:${parts.join('')})$`);
  }

  /** What is wrong with an answer, or nothing. */
  difference(status, text) {
    if (status !== this.status) return `ended with ${status} instead of ${this.status}, and printed ${shown(text)}`;
    const printed = this.inTicks ? stampsAsTicks(text) : text;
    if (!this.pattern().test(printed)) return `printed ${shown(printed)} instead of ${shown(this.lines.join('\n'))}`;
    for (const [start, lines] of this.onlyFrom) {
      const begins = unescaped(start), found = linesOf(printed).filter(line => line.startsWith(begins)).join('');
      if (found !== textOf(lines)) return `has these lines from ${start}: ${shown(found)} instead of ${shown(lines.join('\n'))}`;
    }
    return undefined;
  }
}

/** Reads one file of rows. A part of a file is { lines, times }, { path } or { words }. */
class Reader {
  constructor(path, group) {
    Object.assign(this, { path, group, texts: {}, files: {}, rows: [], at: 0 });
    this.lines = new TextDecoder('utf-8', { fatal: true }).decode(readFileSync(path)).split('\n');
  }

  fault(why, line = this.at) {
    return new RowFault(this.path, line, why);
  }

  /** The indented lines that follow, without their indent. */
  block() {
    const lines = [];
    while (this.at < this.lines.length && this.lines[this.at].startsWith('  ')) lines.push(this.lines[this.at++].slice(2));
    return lines;
  }

  /** The text of a heading: what is beside it, or else the indented lines that follow. */
  text(beside) {
    return beside ? [beside.slice(1)] : this.block();
  }

  /** The row that is being read. */
  row() {
    if (this.rows.length === 0) throw this.fault('there is no row yet: a row begins with ==');
    return this.rows.at(-1);
  }

  /** Adds a part of a file, which belongs to the row, or to all rows where none has begun. */
  piece(name, piece) {
    const files = (this.rows.at(-1) ?? this).files;
    (files[name] ??= []).push(piece);
  }

  begin(title) {
    if (this.rows.some(row => row.title === title)) throw this.fault(`two rows are called ${title}`);
    this.rows.push({ title, line: this.at, calls: [], files: {}, columns: [], table: [], status: undefined, inTicks: false, text: [], onlyFrom: [], isLarge: false });
  }

  exit(status, inTicks, beside) {
    const row = this.row();
    if (row.status !== undefined) throw this.fault('the row has two exits');
    Object.assign(row, { status: Number(status), inTicks: inTicks !== undefined, text: this.text(beside) });
  }

  /** Reads one line at the left edge, with the text that belongs to it. */
  heading(line) {
    for (const [form, read] of this.forms()) {
      const found = form.exec(line);
      if (found) {
        read(...found.slice(1));
        return;
      }
    }
    throw this.fault('a line at the left edge is ==, $, exit, for, let, lines from, large, or a file');
  }

  /** The forms of such lines, each with what is done with its parts. The first that fits counts. */
  forms() {
    return [
      [/^== (\S[^\n]*)$/, title => this.begin(title)],
      [/^\$( [^\n]+)?$/, words => this.row().calls.push((words ?? '').slice(1))],
      [/^exit ([0-9]+)( in ticks)?:( [^\n]*)?$/, (status, inTicks, beside) => this.exit(status, inTicks, beside)],
      [/^large$/, () => { this.row().isLarge = true; }],
      [/^lines from (\S[^\n]*):$/, start => this.row().onlyFrom.push([start, this.block()])],
      [/^for ([A-Z]+(?: [A-Z]+)*):$/, columns => Object.assign(this.row(), { columns: columns.split(' '), table: this.block() })],
      [/^let ([A-Z]+):( [^\n]*)?$/, (name, beside) => { this.texts[name] = this.text(beside).join('\n'); }],
      [new RegExp(`^(${NAME})(?: \\(([0-9]+) times\\))?:( [^\\n]*)?$`),
        (name, times, beside) => this.piece(name, { lines: this.text(beside), times: Number(times ?? 1) })],
      [new RegExp(`^(${NAME}) = (\\S+)$`), (name, path) => this.piece(name, { path })],
      [new RegExp(`^(${NAME}) <- ([^\\n]+)$`), (name, words) => this.piece(name, { words })],
    ];
  }

  /** Reads the file, and returns its cases. */
  read() {
    while (this.at < this.lines.length) {
      const line = this.lines[this.at++];
      if (line.trim() !== '' && !line.startsWith('#')) this.heading(line);
    }
    return this.rows.flatMap(row => this.cases(row));
  }

  /** The cases of a row: one for each line of its table, or one where it has none. */
  cases(row) {
    if (row.calls.length === 0 || row.status === undefined) throw this.fault('the row needs a $ line and an exit', row.line);
    if (row.columns.length > 0 && row.table.length === 0) throw this.fault("the row's table is empty", row.line);
    return (row.table.length > 0 ? row.table : ['']).map(line => {
      const cells = row.columns.length > 1 ? line.split('|').map(cell => cell.replace(/^ +| +$/g, '')) : [line];
      if (row.columns.length > 0 && cells.length !== row.columns.length) throw this.fault(`${row.columns.length} columns, but ${line}`, row.line);
      return this.case(row, Object.fromEntries(row.columns.map((name, at) => [name, cells[at]])), line);
    });
  }

  /** The row with these cells in their places. */
  case(row, cells, line) {
    const texts = { ...this.texts, ...cells }, used = new Set();
    const put = text => text.replace(PLACEHOLDER, (_, name) => {
      if (!Object.hasOwn(texts, name)) throw this.fault(`{${name}} has no value`, row.line);
      used.add(name);
      return texts[name];
    });
    const filled = lines => lines.length > 0 ? lines.map(put).join('\n').split('\n') : [];
    const wordsOf = call => call === '' ? [] : put(call).split(' ');
    const pieceOf = ({ lines, times, path, words }) => lines ? { lines: filled(lines), times } : path ? { path } : { words: wordsOf(words) };
    const files = Object.fromEntries(Object.entries({ ...this.files, ...row.files }).map(([name, pieces]) => [name, pieces.map(pieceOf)]));
    const onlyFrom = row.onlyFrom.map(([start, lines]) => [start, filled(lines)]);
    const expected = new Expected(row.status, filled(row.text), row.inTicks, onlyFrom), calls = row.calls.map(wordsOf);
    const unused = Object.keys(cells).filter(name => !used.has(name)).sort();
    if (unused.length > 0) throw this.fault(`no line of the row has {${unused[0]}}`, row.line);
    this.judge(expected, files, row.line);
    const title = row.columns.length > 0 ? `${row.title} [${line}]` : row.title;
    return { group: this.group, title, calls, files, expected, isLarge: row.isLarge };
  }

  /** Refuses a case with an escape that is none. */
  judge(expected, files, line) {
    try {
      expected.pattern();
      for (const pieces of Object.values(files)) for (const { lines } of pieces) if (lines) textOf(lines);
    } catch (error) {
      if (error instanceof SyntaxError) throw this.fault(error.message, line);
      throw error;
    }
  }
}

/** The cases of one file of rows. */
export function readRows(path, group) {
  return new Reader(path, group).read();
}
