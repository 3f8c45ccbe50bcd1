// Board files of other tools, opened beside the keyboard: they become a layout, or what is wrong is said, with the ways on.
import { BOARD_BUTTONS, downloadFor } from './board_downloads.js';
import { optionsOf, withOption } from './board_options.js';
import { fromKle, isKeymapText } from './boards/from_kle.js';
import { Refused } from './boards/refused.js';
import { TABLES } from './boards/tables.js';
import { byId, make, tell } from './dom.js';
import { files } from './files.js';
import { bring, keepMade } from './taking.js';
import { textOfFile } from './text_files.js';

/** Where the keys of a layout that was made of a board are drawn, by the layout's file and the key's name. */
export const shapes = new Map();

// The options that a refusal or a remark names, with what their buttons say. One whose value is left to the reader has none; of a
// key it has a list of names.
const NAMED_OPTION = /--(key|fn|without|diodes|layout|layer|option) ([\w,.=-]*\w)|--(count|any-keyboard|no-fn|doubles)(?![\w-])/g;
const LEFT_TO_READER = /(^|=)(NAME|KEY|N)$|,M$/, NOT_OFFERED = /; or choose among .*/;
const BUTTON_LABELS = {
  key: value => value.replace('=', ' is '), fn: value => `Fn is ${value}`, diodes: value => `Its diodes are ${value}`, layout: value => value,
  without: value => ({ unknown: 'Leave every such key out', doubles: 'Leave keys out that are there twice' }[value] ?? `Leave ${value} out`),
  layer: value => `Layer ${value.replace('=', ' is ')}`, option: value => `Option ${value.replace(',', ': choice ')}`,
  count: () => 'Count its keys', 'any-keyboard': () => 'Take it all the same', 'no-fn': () => 'No key is Fn', doubles: () => 'Two switches at one place',
};

/** What lines offer: the words of each option that they name, and its label; of a key without a name its number. */
export function waysIn(lines) {
  const found = new Map();
  for (const line of lines) {
    for (const [text, option, value, alone] of line.replace(NOT_OFFERED, '').matchAll(NAMED_OPTION)) {
      if (alone) found.set(text, { words: [`--${alone}`], label: BUTTON_LABELS[alone]() });
      else if (option === 'key' && value.endsWith('=NAME')) found.set(text, { number: value.slice(0, -'=NAME'.length) });
      else if (!LEFT_TO_READER.test(value)) found.set(text, { words: [`--${option}`, value], label: BUTTON_LABELS[option](value) });
    }
  }
  return [...found.values()];
}

/** What from_kle answers of words over these files. */
export function answerOfBoards(words, all = files) {
  return fromKle(words, name => {
    if (name in all) return all[name];
    throw new Refused('there is no such file');
  });
}

/** The name of the layout that is made of a board. */
export const layoutNameOf = words => `${words.findLast(word => files[word] !== undefined && !isKeymapText(files[word]))?.replace(/\.[^.]*$/, '') ?? 'board'}.toml`;

/** Keeps a layout that was made of a board, with its shapes. Whether it was kept: the user may keep their own. */
export async function keepLayout(name, { text, shapes: drawn }) {
  const before = shapes.get(name);
  shapes.set(name, drawn);
  const isKept = await keepMade(name, text, 'This board');
  if (!isKept && before) shapes.set(name, before);
  else if (!isKept) shapes.delete(name);
  return isKept;
}

// Whether an option that is offered is one of those that are chosen.
const isChosen = (options, { words }) => words !== undefined && options.some(it => it.join(' ') === words.join(' '));

export class BoardOpener {
  /** `chosen(name)` draws a layout; `bench(words)` shows words in the workbench. */
  constructor({ chosen, bench }) {
    Object.assign(this, { chosen, bench, board: null, keymap: null });
    byId('open-board').onchange = ({ target }) => {
      const list = [...target.files];
      target.value = '';
      this.take(list);
    };
  }

  /** Takes files of the user's system. */
  async take(list) {
    const taken = [];
    try {
      for (const file of list) taken.push(await textOfFile(file));
    } catch (error) {
      this.#say(error.message, false, []);
      return;
    }
    for (const { name, text } of taken) await bring({ [name]: text }, name);
    const layout = taken.find(({ name }) => name.endsWith('.toml'));
    if (layout) {
      this.#hide();
      this.chosen(layout.name);
      return;
    }
    this.open(...taken.map(({ name }) => name));
  }

  /** Opens files of the page: a board, its keymap, or the keymap of the board that was opened before. */
  open(...names) {
    const keymap = names.find(name => isKeymapText(files[name])), board = names.find(name => name !== keymap);
    if (board) Object.assign(this, { board, keymap: null });
    if (keymap) this.keymap = keymap;
    this.#try([]);
  }

  async #try(options) {
    const named = [this.board, this.keymap].filter(Boolean), words = [...options.flat(), ...named], said = answerOfBoards(words);
    const again = more => this.#try(withOption(options, more)), ways = waysIn(said.told).filter(it => !isChosen(options, it))
      .map(({ words: more, label, number }) => (more ? this.#button(label, () => again(more)) : this.#naming(number, name => again(['--key', `${number}=${name}`]))));
    ways.push(...options.map(option => this.#button(`Take back ${option.join(' ')}`, () => this.#try(options.filter(it => it !== option)))));
    ways.push(this.#button('The words in the workbench', () => this.bench(['from_kle', ...words].join(' '))));
    const table = answerOfBoards(['--table', ...words]);
    if (table.status === 0) ways.push(optionsOf(table.text, again));
    if (said.status !== 0) {
      this.#say(said.told.join('\n'), false, ways);
      return;
    }
    const name = layoutNameOf(words);
    if (!await keepLayout(name, said)) {
      this.#say(`${name} stays as you have changed it, and ${named.join(' and ')} isn't drawn.`, undefined, ways);
      return;
    }
    const forPico = this.#button(BOARD_BUTTONS.pico, () => downloadFor('pico', name, byId('download-told')));
    this.#say(`${name} is made of ${named.join(' and ')}.`, true, [forPico, ...ways], said.told);
    this.chosen(name);
  }

  #button(label, act) { return Object.assign(make('button', { type: 'button', textContent: label }), { onclick: act }); }

  // A list of the keys that one may be.
  #naming(number, act) {
    const list = make('select', {}, new Option(`${number} is ..`, ''), ...TABLES.keys.map(name => new Option(name)));
    list.setAttribute('aria-label', `What the key ${number} sends`);
    list.onchange = () => act(list.value);
    return list;
  }

  #hide() { for (const id of ['board-told', 'download-told']) byId(id).hidden = true; }

  #say(text, right, ways, lines = []) {
    const words = make('p');
    tell(words, text, right);
    const more = lines.length
      ? [make('details', {}, make('summary', { textContent: `${lines.length} remarks on it` }), make('ul', {}, ...lines.map(line => make('li', { textContent: line }))))] : [];
    byId('board-told').replaceChildren(words, ...more, make('div', { className: 'bar' }, ...ways));
    byId('board-told').hidden = false;
    byId('download-told').hidden = true;
  }
}
