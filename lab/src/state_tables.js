// The registers and the data memory of a state. A text that changes costs a picture, so only these are written.
import { byId, hex, make, setText } from './dom.js';
import { CELLS } from './session.js';

const ROW = 16;

const spaced = list => list.map(byte => hex(byte)).join(' ');

/** What the table of registers shows of a state: names and texts. */
const rowsOf = ({ counter, named, flags, banks, stack }) => [
  ['PC', hex(counter, 3)], ['A', named.a], ['PSW', named.psw], ...Object.entries(flags), ['F1', named.f1],
  ['memory bank', named.mb], ['T', named.t], ['prescaler', named.pre], ['timer flag', named.tf], ['T runs', named.run],
  ['timer interrupt', named.tim], ['in service', named.svc], ['P1', named.p1], ['P2', named.p2],
  ['R0 to R7', spaced(banks[0])], ['the same, bank 1', spaced(banks[1])],
  ['stack', stack.map(place => hex(place, 3)).join(' ') || 'empty'],
].map(([name, value]) => [name, String(value)]);

export class StateTables {
  constructor() {
    this.registers = new Map();
    this.cells = [];
  }

  /** Shows a state; what differs from the one before it is marked. */
  show(state, before) {
    const rows = rowsOf(state), had = before && new Map(rowsOf(before));
    if (this.registers.size !== rows.length) this.#begin(rows);
    for (const [name, text] of rows) setCell(this.registers.get(name), text, had && had.get(name) !== text);
    for (const [at, cell] of this.cells.entries()) setCell(cell, hex(state.cells[at]), before && before.cells[at] !== state.cells[at]);
  }

  #begin(rows) {
    this.registers = new Map(rows.map(([name]) => [name, make('td')]));
    byId('registers').replaceChildren(make('table', {}, ...rows.map(([name]) =>
      make('tr', {}, make('th', { scope: 'row', textContent: name }), this.registers.get(name)))));
    this.cells = Array.from({ length: CELLS }, () => make('td'));
    byId('cells').replaceChildren(make('table', {}, ...Array.from({ length: CELLS / ROW }, (_, row) =>
      make('tr', {}, make('th', { scope: 'row', textContent: hex(row * ROW) }), ...this.cells.slice(row * ROW, (row + 1) * ROW)))));
  }
}

function setCell(cell, text, isChanged) {
  setText(cell, text);
  if (cell.classList.contains('changed') !== Boolean(isChanged)) cell.classList.toggle('changed');
}
