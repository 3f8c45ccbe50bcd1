// What is made of a board: the layout file, a table of the keys, or the wiring.
import { Refused, charactersOf } from './refused.js';

// The names that keys get in key files: that of the key that they send, or of one that the board hasn't.
class Names {
  constructor(all, roles) {
    const sent = new Set(roles.flatMap(role => [role.sends, role.underFn]).filter(Boolean)), named = new Set(roles.map(role => role.sends));
    const order = key => 2 * sent.has(key) + !key.startsWith('kp');
    Object.assign(this, { all: all.length, taken: new Set(), fn: '' });
    // What nobody sends is first, and of that the keypad.
    this.spare = all.filter(key => !named.has(key)).sort((a, b) => order(a) - order(b));
    const fn = roles.find(role => role.isFn);
    if (fn) {
      this.fn = this.spare.includes('sysreq') ? 'sysreq' : this.#unused(fn);
      this.spare = this.spare.filter(key => key !== this.fn);
    }
  }

  #unused(role) {
    if (!this.spare.length) {
      throw new Refused(`${role.key.where} (${role.source || role.sends}) is one key too many: a layout has ${this.all} names for keys; `
        + `--without ${role.key.number} leaves it out`);
    }
    return this.spare.shift();
  }

  of(role) {
    if (role.isFn) return this.fn;
    if (!role.sends || this.taken.has(role.sends)) return this.#unused(role);
    this.taken.add(role.sends);
    return role.sends;
  }
}

/** The entries of keys that send something, and of Fn; and what is told of names. */
export function entriesOf(all, roles, places) {
  if (!roles.some(role => role.sends)) throw new Refused('none of its keys has a name that is known; a keymap may name them');
  const names = new Names(all, roles), told = [], entries = [];
  for (const [at, role] of roles.entries()) {
    const place = places[at];
    if (!place || role.beside || !(role.isFn || role.sends)) continue;
    const name = names.of(role);
    entries.push({ name, place, role });
    if (role.isFn) told.push(`Fn (${role.key.where}): key files call it ${name}`);
    else if (name !== role.sends) told.push(`a second ${role.sends} (${role.key.where}): key files call it ${name}`);
  }
  return { entries, told };
}

function linesOf({ name, place, role }) {
  const lines = ['[[key]]', `key = "${name}"`, `column = ${place.column}`, `row = ${place.row}`];
  if (role.isFn) return [...lines, 'fn = true'];
  if (role.sends !== name) lines.push(`sends = "${role.sends}"`);
  if (role.underFn) lines.push(`fn_sends = "${role.underFn}"`);
  return lines;
}

/** The layout file. It has a debounce, since the switches of a board that is built may be used ones. */
export function layoutText(entries, heading) {
  const format = entries.some(entry => entry.role.isFn) ? 2 : 1;
  return [`# ${heading.replace(/[^ -~]/gu, '?')}`, `format = ${format}`, 'debounce = true', ...entries.flatMap(linesOf), ''].join('\n');
}

/** A line for each key of the board, in the file's order: its name in key files, its place, what the file has, what it sends,
    what under Fn, and what there is to say of it. */
export function tableText(entries, roles) {
  const rows = [['key', 'column,row', 'switch', 'in the file', 'sends', 'under Fn', 'note']];
  for (const role of roles) {
    const entry = entries.find(it => it.role === (role.beside ?? role));
    rows.push([entry?.name ?? '-', entry ? `${entry.place.column},${entry.place.row}` : '-', role.key.where,
      [role.source, role.sourceFn].filter(Boolean).join(' / '), role.isFn ? 'Fn' : role.sends || 'nothing',
      role.isFn || !entry ? '' : role.underFn ?? '', role.notes.join('; ')]);
  }
  const widths = rows[0].map((_, at) => Math.max(...rows.map(row => charactersOf(row[at]).length)));
  const padded = (part, at) => part + ' '.repeat(widths[at] - charactersOf(part).length);
  return rows.map(row => `${row.map(padded).join('  ').trimEnd()}\n`).join('');
}

/** A line for each column: which key goes to which of its rows. */
export function wiringLines(entries, roles) {
  const besides = entry => roles.filter(role => role.beside === entry.role).map(role => ` and ${role.key.where}`).join('');
  const columns = [...new Set(entries.map(entry => entry.place.column))].sort((a, b) => a - b);
  return columns.map(column => {
    const here = entries.filter(entry => entry.place.column === column).sort((a, b) => a.place.row - b.place.row);
    return `column ${column}: ${here.map(entry => `row ${entry.place.row} ${entry.name} (${entry.role.key.where}${besides(entry)})`).join('; ')}`;
  });
}
