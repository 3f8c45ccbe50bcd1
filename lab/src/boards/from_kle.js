// The command from_kle, which makes a layout of a board that another tool describes: for the page, and in Node for the script
// examples/from_kle, whose head comment is the help.
import { attention } from './attention.js';
import { WrongWords, choicesOf, judgeNamedKeys } from './choices.js';
import { judgeDoubles } from './doubles.js';
import { kindOfText } from './file_kinds.js';
import { boardOfEditor, boardOfVia } from './editor_rows.js';
import { frontLayer, withoutFront } from './front_legends.js';
import { readJson } from './json_text.js';
import { codesOf, isKeymap, isOfVial, judgeBoard, keymapOf } from './keymap_files.js';
import { numberedLayers } from './layer_names.js';
import { entriesOf, layoutText, tableText, wiringLines } from './layout_text.js';
import { shownLegends } from './legend_text.js';
import { readLegends } from './legends.js';
import { boardOfQmk } from './qmk_board.js';
import { Refused, isLeftOut, isTable } from './refused.js';
import { roleOf, rolesOf } from './roles.js';
import { TABLES } from './tables.js';
import { isCounted, wiringOf } from './wiring.js';

const STATUS = { done: 0, words: 2, refused: 3 };
const IN_C = /^\s*#\s*include|\bPROGMEM\b|\bLAYOUT\w*\(/m;

/** What a file's JSON says, and what is told of it, with the file's name. */
function loaded(textOf, name) {
  try {
    const text = textOf(name).replace(/^\uFEFF/, '').replace(/\r\n?/g, '\n');
    if (/\.[ch]$/.test(name) || (IN_C.test(text) && !/^\s*[{[]/.test(text))) {
      throw new Refused(`it is a keymap in C; \`qmk c2json -kb KEYBOARD -km KEYMAP ${name}\` makes JSON of it, which can be read`);
    }
    if (!text.trim()) throw new Refused('it is empty');
    const kind = kindOfText(text, name);
    if (kind && !/^\s*[{["]/.test(text)) throw new Refused(kind);
    const { data, told } = readJson(text);
    return { data, told: told.map(line => `${name}: ${line}`) };
  } catch (fault) {
    if (fault instanceof Refused) fault.file = name;
    throw fault;
  }
}

/** The board of a file of any of the three tools, with the name of the layout that its keymap is for. */
function boardOf(read, choices, ofKeymap) {
  let data = read;
  if (isOfVial(data)) throw new Refused("it is a keymap that Vial has saved; the board's definition comes before it: from_kle vial.json FILE.vil");
  if (isKeymap(data)) throw new Refused("it is a keymap; the board comes before it: from_kle info.json FILE, or VIA's definition");
  // QMK's service hands out boards by their folders.
  if (isTable(data) && isTable(data.keyboards) && Object.keys(data.keyboards).length === 1) [data] = Object.values(data.keyboards);
  const layouts = isTable(data) ? data.layouts : null;
  if (!Array.isArray(data) && (!isTable(layouts) || !Object.keys(layouts).length)) {
    throw new Refused('it is neither rows of keys nor a board with layouts');
  }
  const board = Array.isArray(data) ? boardOfEditor(data, choices)
    : 'keymap' in layouts ? boardOfVia(data, choices) : boardOfQmk(data, choices, ofKeymap);
  if (!board.keys.length) throw new Refused('it has no keys');
  return board;
}

/** What a key does under Fn by the legend at its front, which the role notes; nothing if the legend says nothing new. */
function takeFront(role, { text, name, why }) {
  role.sourceFn = text;
  if (name === null) role.notes.push(`under Fn ${text}: left out, since ${why}`);
  else if (name !== role.sends) role.underFn = name;
}

/** What each key does by its legends, and what is told of it. Those at the front are what it sends under Fn. */
function fromLegends(board, choices) {
  const { readings, country, told } = readLegends(board.keys, choices), layer = frontLayer(board.keys, readings, country, choices);
  if (choices.fn && !layer.fn) {
    throw new Refused(`legends say one layer, so --fn ${choices.fn} has none to select; a keymap that has two comes after the board's file`);
  }
  told.push(...layer.told);
  const roles = board.keys.map((key, at) => {
    const { name, note } = readings[at], said = shownLegends(layer.under.has(at) ? withoutFront(key) : key), role = roleOf(key, { sends: name || null, source: said });
    const words = said || 'a key without a legend';
    if (key === layer.fn) Object.assign(role, { isFn: true, sends: null });
    else if (!name && !isLeftOut(key, choices.without)) {
      role.notes.push('left out');
      told.push(`left out: ${words} (${key.where})`);
    } else if (note) {
      role.notes.push(note);
      told.push(`${words} (${key.where}) ${note.startsWith('is ') ? note : `is ${name}, and ${note}`}`);
    }
    if (layer.under.has(at)) takeFront(role, layer.under.get(at));
    return role;
  });
  const fn = layer.fn && { role: roles.find(role => role.isFn), tap: null, others: [] };
  return { roles, fn, told };
}

/** What each key does by a keymap, and what is told of it. */
function fromKeymap(board, keymap, choices, path) {
  const told = judgeBoard(board, keymap, path, choices.anyKeyboard);
  const { layers, told: ofLayers } = numberedLayers(board.keys, codesOf(board, keymap), choices.layers);
  const { roles, fn, told: ofKeys } = rolesOf(board.keys, layers, choices);
  return { roles, fn, told: [...told, ...ofLayers, ...ofKeys, ...keymap.wheels ? ["left out: the codes of the wheels' turns"] : []] };
}

/** A line of the keys that the words leave out, and one of those that they name. */
function ofWords(choices, roles) {
  const gone = roles.filter(role => isLeftOut(role.key, choices.without)), named = roles.filter(role => choices.keys.has(role.key.number));
  for (const role of gone) role.notes.push('left out by --without');
  for (const role of named) role.notes.push('by --key');
  return [
    ...gone.length ? [`left out by --without: ${gone.map(role => role.key.where).join(', ')}`] : [],
    ...named.length ? [`by --key: ${named.map(role => `${role.sends} (${role.key.where})`).join(', ')}`] : [],
  ];
}

const baseOf = name => name.slice(name.lastIndexOf('/') + 1);

/** What is printed of the files with these names, what is told beside it, and where the key of each place is drawn. */
function madeOf(choices, names, textOf) {
  const first = loaded(textOf, names[0]), second = names.length > 1 ? loaded(textOf, names[1]) : null;
  if (second && isKeymap(first.data) && !isKeymap(second.data)) throw new Refused(`the board comes before its keymap: from_kle ${names[1]} ${names[0]}`);
  const keymap = second && keymapOf(second.data), ofFile = [...first.told, ...second?.told ?? []];
  const board = boardOf(first.data, choices, keymap?.layout ?? null);
  judgeNamedKeys(board.keys, choices, why => { throw new Refused(why); });
  const { roles, told, fn } = keymap ? fromKeymap(board, keymap, choices, names[0]) : fromLegends(board, choices);
  const ofOptions = [...ofWords(choices, roles), ...judgeDoubles(roles, TABLES.keys.length, choices, isCounted(board, choices))];
  const lacking = attention(roles, choices, fn), all = [...ofFile, ...board.told, ...told, ...ofOptions, ...lacking];
  const wired = wiringOf(board, choices, roles), { entries, told: ofNames } = entriesOf(TABLES.keys, roles, wired.places);
  const lines = wiringLines(entries, roles);
  if (choices.prints.has('table')) {
    // The table has what else a line a key says.
    return { text: tableText(entries, roles), told: [...ofFile, ...board.told, ...lacking, ...wired.asks] };
  }
  if (choices.prints.has('wiring')) return { text: `${lines.join('\n')}\n`, told: [...all, ...ofNames, ...wired.asks] };
  const heading = `Made by from_kle of ${names.map(baseOf).join(' and ')}. The places are ${wired.how}.`;
  // Of a board with a keymap the legends say nothing of what its keys send.
  const shapes = Object.fromEntries(entries.map(({ name, role: { key } }) => [name, { x: key.x, y: key.y, width: key.width, height: key.height, turned: key.turned, legend: keymap ? '' : shownLegends(key) }]));
  return { text: layoutText(entries, heading), told: [...all, ...ofNames, ...wired.asks, ...wired.anew || choices.doubles ? lines : []], shapes };
}

/** The exit status, what is printed, what is told beside it; and of a layout, where each of its keys is drawn. `textOf` gives the
    text of a file by its name, or throws why it can't. */
export function fromKle(words, textOf) {
  if (words.length === 1 && ['--help', '-h'].includes(words[0])) return { status: STATUS.done, text: TABLES.help, told: [] };
  let names = [];
  try {
    const found = choicesOf(words);
    ({ names } = found);
    return { status: STATUS.done, ...madeOf(found.choices, names, textOf) };
  } catch (fault) {
    if (fault instanceof WrongWords) return { status: STATUS.words, text: '', told: [fault.message, 'the words are [OPTION ..] FILE [KEYMAP], and --help says more'] };
    const why = fault instanceof Refused ? fault.message : "it hasn't the form of a board's description";
    return { status: STATUS.refused, text: '', told: [`${fault.file || names.join(' ')}: ${why}`] };
  }
}

/** Whether a text is a keymap, which has the board beside it. */
export function isKeymapText(text) {
  try {
    return isKeymap(readJson(text).data);
  } catch {
    return false;
  }
}
