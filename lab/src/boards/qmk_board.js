// A board as QMK's info.json or keyboard.json describes it.
import { newBoard, usbNumber } from './editor_rows.js';
import { A_LIST, A_TABLE, A_TEXT, Place, Refused, countOf, inShort, isTable, numberOf, partOf, saysYes, textOf } from './refused.js';

export const DIODES = ['COL2ROW', 'ROW2COL'];

/** The layout that is wanted, by its names or aliases of it, and its keys; or else the only one. */
function layoutNamed(data, wanted) {
  const { layouts } = data, aliases = partOf(data, 'layout_aliases', A_TABLE), all = Object.keys(layouts);
  for (const alias of Object.keys(aliases)) partOf(aliases, alias, A_TEXT, 'layout_aliases.');
  const chosen = [...new Set(wanted.map(name => (name in layouts ? name : aliases[name] ?? name)))];
  const names = chosen.length ? chosen : all, unknown = names.find(name => !(name in layouts));
  if (unknown !== undefined) throw new Refused(`it has no layout ${unknown}, but ${[...all, ...Object.keys(aliases)].join(', ')}`);
  if (names.length > 1) {
    throw new Refused(wanted.length ? 'the keymap is for another layout than --layout says'
      : `it has the layouts ${all.join(', ')}; ${all.map(name => `--layout ${name}`).join(' or ')} says which`);
  }
  const [name] = names, layout = partOf(partOf(layouts, name, A_TABLE, 'layouts.'), 'layout', A_LIST, `layouts.${name}.`);
  const at = layout.findIndex(key => !isTable(key));
  if (at >= 0) throw new Refused(`key ${at + 1} of ${name} is ${inShort(layout[at])}, and not an object`);
  return { name, layout };
}

/** A key's place in the matrix, or null if the file gives none. */
function placeOfKey(key, where) {
  if (!('matrix' in key)) return null;
  const pair = key.matrix;
  if (!Array.isArray(pair) || pair.length !== 2 || !pair.every(line => Number.isInteger(line) && line >= 0)) {
    throw new Refused(`${where}: its matrix is ${inShort(pair)}, and no row and column`);
  }
  return new Place(...pair);
}

const isSplit = data => saysYes(partOf(data, 'split', A_TABLE).enabled);

/** The rows and columns of the matrix, of both halves of a split board, as far as the file says them. */
function sizeOf(data) {
  const size = partOf(data, 'matrix_size', A_TABLE), pins = partOf(data, 'matrix_pins', A_TABLE), halves = isSplit(data) ? 2 : 1;
  const [rows, columns] = ['rows', 'cols'].map(name => partOf(pins, name, A_LIST, 'matrix_pins.').length || null);
  return {
    rows: countOf(size.rows, 'matrix_size.rows') ?? (rows && rows * halves), columns: countOf(size.cols, 'matrix_size.cols') ?? columns,
  };
}

// How a key is turned, about which point, or null; without a point about its own corner.
function turnedOf({ r, rx, ry, x, y }) {
  const [by, ...point] = [r, rx ?? x, ry ?? y].map(it => (typeof it === 'number' ? it : 0));
  return by ? { by, x: point[0], y: point[1] } : null;
}

/** The board, with the keys of one of its layouts: that which the keymap is for, or the words choose. */
export function boardOfQmk(data, choices, ofKeymap) {
  if (choices.options.length) throw new Refused("a board of QMK's has no options, but layouts: --layout NAME");
  if ('direct' in partOf(data, 'matrix_pins', A_TABLE) && !choices.counted) {
    throw new Refused('each of its keys has a pin (matrix_pins.direct), and there is no matrix; with --count its keys are '
      + 'counted, for a board that is wired so');
  }
  const { name, layout } = layoutNamed(data, [choices.layout, ofKeymap].filter(Boolean));
  const keys = layout.map((key, at) => {
    const counted = `key ${at + 1} of ${name}`, place = placeOfKey(key, counted);
    const numberIn = (what, usual) => numberOf(what in key ? key[what] : usual, `${counted}: its ${what}`);
    return {
      where: place ? `matrix ${place}` : counted, number: `${place ?? at + 1}`,
      legends: ('label' in key ? textOf(key.label) : '').split('\n').map(part => part.trim()), width: numberIn('w', 1), place,
      x: numberIn('x', 0), y: numberIn('y', 0), height: typeof key.h === 'number' ? key.h : 1, turned: turnedOf(key),
    };
  });
  const said = data.diode_direction ?? null;
  if (said !== null && !DIODES.includes(said)) throw new Refused(`its diode_direction is ${inShort(said)}, and neither COL2ROW nor ROW2COL`);
  const size = sizeOf(data), usb = partOf(data, 'usb', A_TABLE);
  const board = newBoard('QMK', {
    keys, ...size, diodes: said, split: isSplit(data), usb: usbNumber(usb.vid, usb.pid),
    folder: data.keyboard_folder ?? null, name: 'keyboard_name' in data ? textOf(data.keyboard_name) : '',
  });
  if (layout.some(key => 'encoder' in key) || saysYes(partOf(data, 'encoder', A_TABLE).rotary)) {
    board.told.push('left out: the turns of its wheels, which are no keys');
  }
  return board;
}
