// What the readers of other tools' board files share: refusals, and values of JSON taken as what they must be.

/** What is wrong with a file, in words; `file` says with which one, if it is with one alone. */
export class Refused extends Error {
  constructor(words) {
    super(words);
    this.file = '';
  }
}

/** A value that hasn't the form of what is read here. */
export class Shapeless extends Error {}

export const isTable = value => typeof value === 'object' && value !== null && !Array.isArray(value);

// The kinds of parts that a table may have.
export const A_TABLE = { words: 'an object', has: isTable, none: () => Object.create(null) };
export const A_LIST = { words: 'a list', has: Array.isArray, none: () => [] };
export const A_TEXT = { words: 'a text', has: value => typeof value === 'string', none: () => '' };

function jsonOf(value) {
  if (Array.isArray(value)) return `[${value.map(jsonOf).join(', ')}]`;
  if (isTable(value)) return `{${Object.entries(value).map(([name, it]) => `${JSON.stringify(name)}: ${jsonOf(it)}`).join(', ')}}`;
  return typeof value === 'number' ? String(value) : JSON.stringify(value);
}

const MOST_SHOWN = 30; // characters

/** A value of JSON as a message has it. */
export function inShort(value) {
  const text = charactersOf(jsonOf(value));
  return text.length <= MOST_SHOWN ? text.join('') : `${text.slice(0, MOST_SHOWN - 3).join('')}...`;
}

/** A part of a table by its name, empty if it isn't there. One of another kind is refused by its path. */
export function partOf(table, name, kind, path = '') {
  const value = table[name] ?? null;
  if (value === null) return kind.none();
  if (!kind.has(value)) throw new Refused(`${path}${name} is ${inShort(value)}, and not ${kind.words}`);
  return value;
}

/** A number of a file, or a text that says one; `what` names it if it is none. */
export function numberOf(value, what) {
  const isText = typeof value === 'string' && /^\s*[+-]?(\d+\.?\d*|\.\d+)(e[+-]?\d+)?\s*$/i.test(value);
  const number = isText || typeof value === 'number' ? Number(value) : NaN;
  if (!Number.isFinite(number)) throw new Refused(`${what} is ${inShort(value)}, and no number`);
  return number;
}

/** A number of rows or columns, or null if the file doesn't say it. */
export function countOf(value, what) {
  if (value === undefined || value === null) return null;
  if (!Number.isInteger(value) || value < 1) throw new Refused(`${what} is ${inShort(value)}, and no number of lines`);
  return value;
}

/** Whether a value says yes: nothing, zero and what is empty don't. */
export const saysYes = value => (typeof value === 'object' && value !== null ? Object.keys(value).length > 0 : Boolean(value));

/** A text in quotes, as messages have it. */
function quotedText(text) {
  const plain = text.replaceAll('\\', '\\\\').replaceAll('\n', '\\n').replaceAll('\t', '\\t').replaceAll('\r', '\\r');
  return plain.includes("'") && !plain.includes('"') ? `"${plain}"` : `'${plain.replaceAll("'", "\\'")}'`;
}

/** A value of JSON as a text. */
export function textOf(value) {
  if (typeof value === 'string') return value;
  if (Array.isArray(value)) return `[${value.map(it => (typeof it === 'string' ? quotedText(it) : textOf(it))).join(', ')}]`;
  if (isTable(value)) return JSON.stringify(value);
  return { null: 'None', true: 'True', false: 'False' }[String(value)] ?? String(value);
}

/** The characters of a text; some take two units of its length. */
export const charactersOf = text => Array.from(text);

/** The pieces of a text that space parts. */
export const piecesOf = text => text.split(/\s+/u).filter(Boolean);

export const isAlnum = character => /^[\p{L}\p{N}]+$/u.test(character);

/** Two numbers as VIA writes them into a legend, or null. */
export function pairOf(text) {
  const found = /^\s*(\d+),(\d+)\s*$/.exec(text);
  return found ? [Number(found[1]), Number(found[2])] : null;
}

/** A place in the matrix of a file. */
export class Place {
  constructor(row, column) {
    Object.assign(this, { row, column });
  }

  toString() { return `${this.row},${this.column}`; }
}

/** The first of the items with the least measure, or undefined. */
export function leastOf(items, measure) {
  let best, least = Infinity;
  for (const item of items) {
    const size = measure(item);
    if (size < least) [best, least] = [item, size];
  }
  return best;
}

export const isLeftOut = (key, without) => without.has(key.number);
