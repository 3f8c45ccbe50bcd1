// Rows of keys as keyboard-layout-editor.com has them, plain or with what VIA writes into the legends.
import { A_LIST, A_TABLE, Place, Refused, Shapeless, countOf, inShort, isTable, numberOf, pairOf, partOf, saysYes, textOf } from './refused.js';

// Where the next key is drawn, how wide and how high, and by how many degrees it is turned about which point.
class Pen {
  constructor() {
    Object.assign(this, { x: 0, y: 0, left: 0, top: 0, width: 1, height: 1, angle: 0, decal: false });
  }

  take(said, where) {
    const numbers = {};
    for (const name of ['rx', 'ry', 'x', 'y', 'w']) {
      if (name in said) numbers[name] = numberOf(said[name], `${where}: its property ${name}`);
    }
    const { rx = this.left, ry = this.top, x = 0, y = 0, w = this.width } = numbers;
    [this.left, this.top] = [rx, ry];
    if ('rx' in numbers || 'ry' in numbers) [this.x, this.y] = [rx, ry];
    this.x += x;
    this.y += y;
    this.width = w;
    // A wrong height or angle changes nothing but the picture, so it isn't refused.
    if (typeof said.h === 'number') this.height = said.h;
    if (typeof said.r === 'number') this.angle = said.r;
    if ('d' in said) this.decal = saysYes(said.d);
  }

  /** How a key is turned, or null. */
  get turned() { return this.angle ? { by: this.angle, x: this.left, y: this.top } : null; }

  passKey() {
    this.x += this.width;
    [this.width, this.height, this.decal] = [1, 1, false];
  }

  passRow() {
    [this.x, this.y] = [this.left, this.y + 1];
    [this.width, this.height, this.decal] = [1, 1, false];
  }
}

/** Each key that isn't a decal. */
function* drawnKeys(all) {
  let rows = all;
  // A file of one row has no brackets around its rows; what is said of the board as a whole may come before them.
  if (!rows.some(Array.isArray) && rows.some(item => typeof item === 'string')) rows = [rows];
  if (rows.length && isTable(rows[0])) rows = rows.slice(1);
  const pen = new Pen();
  for (const [above, row] of rows.entries()) {
    if (!Array.isArray(row)) throw new Refused(`row ${above + 1} is ${inShort(row)}, and no row of keys`);
    let number = 0;
    for (const [at, item] of row.entries()) {
      if (isTable(item)) pen.take(item, `row ${above + 1}, key ${number + 1}`);
      else if (typeof item === 'string') {
        number++;
        if (!pen.decal) {
          yield { row: above + 1, number, legends: item.split('\n').map(part => part.trim()), width: pen.width, height: pen.height, x: pen.x, y: pen.y, turned: pen.turned };
        }
        pen.passKey();
      } else throw new Refused(`row ${above + 1}, item ${at + 1}: ${inShort(item)} is neither a key nor its properties`);
    }
    pen.passRow();
  }
}

// VIA's options of a layout: a legend N,M says that a key is there if option N has choice M.
class Options {
  constructor(chosen, labels) {
    Object.assign(this, { chosen: new Map(chosen), labels, seen: new Map() });
  }

  takes([option, choice]) {
    if (!this.seen.has(option)) this.seen.set(option, new Set());
    this.seen.get(option).add(choice);
    return (this.chosen.get(option) ?? 0) === choice;
  }

  told() {
    const unknown = [...this.chosen.keys()].find(number => !this.seen.has(number));
    if (unknown !== undefined) throw new Refused(`it has no option ${unknown}`);
    return [...this.seen].sort(([a], [b]) => a - b).map(([number, choices]) => {
      const taken = this.chosen.get(number) ?? 0, [name, choice] = this.#names(number, taken);
      if (taken > 1 && !choices.has(taken) && !choice) throw new Refused(`its option ${number} has no choice ${taken}`);
      const other = [...choices, 1].find(it => it !== taken) ?? 0;
      return `option ${number}${name}: choice ${taken}${choice} is taken; --option ${number},${other} takes another`;
    });
  }

  #names(number, choice) {
    const label = this.labels[number] ?? '', words = Array.isArray(label) ? label.map(textOf) : [textOf(label)];
    if (!words.length) throw new Shapeless('an option without a name');
    return [words[0] ? ` (${words[0]})` : '', choice + 1 < words.length ? ` (${words[choice + 1]})` : ''];
  }
}

const isWheel = legend => /^e\d*$/.test(legend);

/** The legends of a key with a place, without the place, the option and the wheel. */
function leftOf(legends) {
  const option = legends.length > 3 && pairOf(legends[3]) ? legends[3] : null;
  return legends.slice(1).filter(legend => legend !== option && !isWheel(legend));
}

/** Fills a board with the keys of rows. A place in the matrix is a key's first legend, as VIA has it. */
function readKeys(board, rows, options) {
  for (const key of drawnKeys(rows)) {
    const { legends } = key, where = `row ${key.row}, key ${key.number}`, pair = pairOf(legends[0]);
    const option = legends.length > 3 ? pairOf(legends[3]) : null, after = legends.slice(4);
    if (pair && option && !options.takes(option)) continue;
    if (after.some(isWheel)) {
      // Vial's numbers in the first legend of a wheel are the wheel and its direction, and no place.
      if (after.includes('e') || !pair) {
        board.told.push(`left out: a wheel (${where}): its turns are no keys`);
        continue;
      }
      board.told.push(`a wheel (${where}): its turns are left out, its switch is a key`);
    }
    const place = pair ? new Place(...pair) : null;
    board.keys.push({
      where: place ? `matrix ${place}` : where, number: place ? `${place}` : `${key.row},${key.number}`,
      legends: pair ? leftOf(legends) : legends, width: key.width, height: key.height, place, x: key.x, y: key.y, turned: key.turned,
    });
  }
  board.told.push(...options.told());
}

/** A board's number on USB as VIA has it, of vendor and product, which files write as text or numbers; or null. */
export function usbNumber(vendor, product) {
  const [high, low] = [vendor, product].map(it => {
    const found = /^\s*(0x[0-9a-f]+|0o[0-7]+|0b[01]+|0+|[1-9]\d*)\s*$/i.exec(textOf(it ?? null));
    return found ? Number(found[1]) : NaN;
  });
  return Number.isNaN(high + low) ? null : high * 65536 + low;
}

const emptyBoard = { rows: null, columns: null, diodes: null, split: false, usb: null, folder: null, name: '' };

/** A board without keys as yet. */
export const newBoard = (tool, more) => ({ ...emptyBoard, tool, keys: [], told: [], ...more });

/** The board of the editor's raw data. */
export function boardOfEditor(rows, choices) {
  if (choices.layout) throw new Refused('raw data of keyboard-layout-editor has no named layouts');
  const board = newBoard('editor');
  readKeys(board, rows, new Options(choices.options, []));
  return board;
}

/** The board of VIA's definition. */
export function boardOfVia(data, choices) {
  if (choices.layout) throw new Refused("a definition of VIA's has no named layouts, but options: --option N,M");
  const matrix = partOf(data, 'matrix', A_TABLE), { layouts } = data;
  const board = newBoard('VIA', {
    rows: countOf(matrix.rows, 'matrix.rows'), columns: countOf(matrix.cols, 'matrix.cols'), name: 'name' in data ? textOf(data.name) : '',
    usb: usbNumber(data.vendorId, data.productId),
  });
  const [rows, labels] = ['keymap', 'labels'].map(name => partOf(layouts, name, A_LIST, 'layouts.'));
  readKeys(board, rows, new Options(choices.options, labels));
  return board;
}
