// The lines of a program with their places: those of its source, counted from the text as examples/source_lines.py does, or
// those of `list`. Whether a source is right says `asm` alone.

const ADDRESSED = /^(JMP|CALL|DJNZ|J(?!MPP)[A-Z0-9]+)$/;
const LABEL = /^([A-Z_]\w*)[ \t]*:/i, EQU = /^([A-Z_]\w*)[ \t]+EQU[ \t]+(\w+)$/i;

function number(text) {
  if (text.endsWith('H')) return Number.parseInt(text, 16);
  return text.endsWith('B') ? Number.parseInt(text, 2) : Number(text);
}

// How many bytes a statement in upper case fills.
function length(statement) {
  const word = /^\w+/.exec(statement)[0];
  if (word === 'DB') return statement.split(',').length;
  return statement.includes('#') || ADDRESSED.test(word) ? 2 : 1;
}

/** The lines of a source: each with its text, and its place if it fills bytes; and the places of its labels. */
export function sourceLines(text) {
  const lines = [], labels = new Map();
  let place = 0;
  for (const whole of text.split('\n')) {
    const said = whole.split(';')[0].trim(), label = LABEL.exec(said);
    const statement = (label ? said.slice(label[0].length) : said).trim().toUpperCase();
    if (/^ORG\b/.test(statement)) place = number(statement.split(/\s+/)[1]);
    if (label) labels.set(label[1].toUpperCase(), place);
    const fills = statement && !/^ORG\b/.test(statement) && !EQU.test(statement) ? length(statement) : 0;
    lines.push({ text: whole, place: fills ? place : null });
    place += fills;
  }
  return { lines, labels };
}

/** The lines of a listing. A line has two bytes if its instruction has a value or an address. */
export function listLines(text) {
  let place = 0;
  const lines = text.trimEnd().split('\n').map(line => {
    const it = { text: line, place };
    place += !line.startsWith('DB') && /0[0-9A-F]{2,3}H$/.test(line) ? 2 : 1;
    return it;
  });
  return { lines, labels: new Map() };
}

/** The place that a label or three hexadecimal digits name, or null. */
export function placeOf(word, labels) {
  const known = labels.get(word.toUpperCase());
  if (known !== undefined) return known;
  return /^[0-9A-F]{3}$/i.test(word) ? Number.parseInt(word, 16) : null;
}
