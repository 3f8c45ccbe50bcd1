// Keymaps: QMK's, in the order of a layout's keys, and those that VIA and Vial have saved, in the order of the matrix.
import { Refused, charactersOf, inShort, isAlnum, isTable, saysYes } from './refused.js';

/** Whether a file is what Vial has saved. */
export const isOfVial = data => isTable(data) && Array.isArray(data.layout) && !('layers' in data) && !('layouts' in data);

/** Whether a file is a keymap, and no board. */
export const isKeymap = data => isOfVial(data) || (isTable(data) && Array.isArray(data.layers) && !('layouts' in data));

/** The rows of a layer that Vial has saved. */
function rowsOfVial(layer, number) {
  if (!Array.isArray(layer)) throw new Refused(`layer ${number} of the keymap is ${inShort(layer)}, and no list of rows`);
  const at = layer.findIndex(row => !Array.isArray(row));
  if (at >= 0) throw new Refused(`layer ${number} of the keymap, row ${at + 1}, is ${inShort(layer[at])}, and no list of codes`);
  return layer;
}

// A list of layers, each of rows; a place without a key has a number for a code.
function keymapOfVial(data) {
  if (!data.layout.length) throw new Refused('the keymap has no layers');
  const layers = data.layout.map((layer, number) => rowsOfVial(layer, number).flat().map(code => (typeof code === 'string' ? code : 'KC_NO')));
  return { layout: null, layers, byMatrix: true, wheels: (data.encoder_layout || []).some(saysYes), usb: null, keyboard: null };
}

/** The keymap that a file's JSON says. */
export function keymapOf(data) {
  if (isOfVial(data)) return keymapOfVial(data);
  const layers = isTable(data) ? data.layers : null;
  if (!Array.isArray(layers) || !layers.length) throw new Refused('the keymap has no layers');
  for (const [number, layer] of layers.entries()) {
    if (!Array.isArray(layer)) throw new Refused(`layer ${number} of the keymap is ${inShort(layer)}, and no list of codes`);
    const at = layer.findIndex(code => typeof code !== 'string');
    if (at >= 0) throw new Refused(`layer ${number} of the keymap, code ${at + 1}, is ${inShort(layer[at])}, and no text`);
  }
  const byMatrix = 'vendorProductId' in data || (!('layout' in data) && !('keyboard' in data) && 'macros' in data);
  const { layout = null, keyboard, vendorProductId: usb } = data;
  if (layout !== null && typeof layout !== 'string') throw new Refused("the name of the keymap's layout is no text");
  return {
    layout, layers, byMatrix, wheels: (data.encoders || []).some(saysYes), usb: Number.isInteger(usb) ? usb : null,
    keyboard: typeof keyboard === 'string' ? keyboard : null,
  };
}

const SHORTEST_PART = 3; // characters

const lettersOf = name => charactersOf(name.toLowerCase()).filter(isAlnum).join('');

/** Whether a board goes by a name of QMK's, its own or that of its file's folder. */
function hasName(board, keyboard, path) {
  if (path.replaceAll('\\', '/').includes(keyboard)) return true;
  const own = lettersOf(board.name);
  const parts = keyboard.split('/').map(lettersOf), isLong = name => charactersOf(name).length >= SHORTEST_PART;
  // A short name is in many others by chance.
  return parts.some(part => part === own || (isLong(part) && !part.startsWith('rev') && (own.includes(part) || (isLong(own) && part.includes(own)))));
}

/** Refuses a keymap of another board; what is told if it may be of one. Layouts with names that many boards share fit all. */
export function judgeBoard(board, keymap, path, anyKeyboard) {
  let other = null;
  if (keymap.usb !== null && board.usb !== null && keymap.usb !== board.usb) {
    other = `the keymap is of the board with vendorProductId ${keymap.usb}, and this one has ${board.usb}`;
  } else if (keymap.keyboard && board.folder) {
    if (board.folder !== keymap.keyboard) other = `the keymap is of the board ${keymap.keyboard}, and this one is ${board.folder}`;
  } else if (keymap.keyboard && board.name && !hasName(board, keymap.keyboard, path)) {
    other = `the keymap is of the board ${keymap.keyboard}, and this one is called ${board.name}`;
    if (keymap.layout?.startsWith('LAYOUT_') && keymap.layout !== 'LAYOUT_all') return [`${other}; see that they have the same keys`];
  }
  if (other === null) return [];
  if (!anyKeyboard) throw new Refused(`${other}; --any-keyboard takes it all the same`);
  return [other];
}

/** For each layer the code of each key of the board, in the board's order. */
export function codesOf(board, keymap) {
  if (keymap.byMatrix) return keymap.layers.map((layer, number) => inMatrix(board, number, layer));
  if (board.tool === 'VIA') {
    throw new Refused("the keymap is in the order of a layout of QMK's, which a definition of VIA's doesn't have; a keymap "
      + 'that VIA has saved fits');
  }
  for (const [number, layer] of keymap.layers.entries()) {
    if (layer.length !== board.keys.length) {
      throw new Refused(`layer ${number} of the keymap has ${layer.length} codes, and the board ${board.keys.length} keys`);
    }
  }
  return keymap.layers;
}

/** The codes of a layer in the order of the matrix, row by row, in the order of the board's keys. */
function inMatrix(board, number, layer) {
  const { rows, columns } = board;
  if (rows === null || columns === null) {
    throw new Refused("the keymap is in the order of a matrix, and the board's doesn't say how many rows and columns it has");
  }
  if (layer.length !== rows * columns) {
    throw new Refused(`layer ${number} of the keymap has ${layer.length} codes, and the board's matrix ${rows} rows of ${columns} columns`);
  }
  return board.keys.map(({ where, place }) => {
    if (!place) throw new Refused(`${where} has no place in the matrix`);
    if (place.row >= rows || place.column >= columns) {
      throw new Refused(`${where} is outside its matrix of ${rows} rows of ${columns} columns`);
    }
    return layer[place.row * columns + place.column];
  });
}
