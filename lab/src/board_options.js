// The options of from_kle that somebody chooses for a board beside the keyboard, whatever is said of the board: a key sends something
// else, is Fn or is left out; or no key is Fn. An option is a list of words.
import { TABLES } from './boards/tables.js';
import { make } from './dom.js';

const FN = new Set(['--fn', '--no-fn']);
const keyOfOption = ([, value = '']) => value.split('=')[0];
const CHOOSE = 'choose a key ..';

// Whether one option takes the place of another: one key is Fn, and a key sends one thing.
const replacesOption = (one, other) => (FN.has(one[0]) ? FN.has(other[0]) : one[0] === other[0] && one[0] === '--key' && keyOfOption(one) === keyOfOption(other));

/** These options with one more. */
export const withOption = (options, more) => [...options.filter(it => !replacesOption(more, it)), more];

/** The keys of a board by the table that from_kle prints: each with its number, and what the file has for it. */
function keysInTable(text) {
  const [head, ...rows] = text.trimEnd().split('\n'), ends = ['switch', 'in the file', 'sends'].map(title => head.indexOf(title));
  const cellOf = (row, n) => [...row].slice(ends[n], ends[n + 1]).join('').trim();
  return rows.map(row => ({ number: cellOf(row, 0).match(/\d+/g).join(','), has: cellOf(row, 1) }));
}

function listOf(label, first, entries) {
  const list = make('select', {}, new Option(first, ''), ...entries.map(([text, value]) => new Option(text, value)));
  return { list, element: make('label', { textContent: `${label} ` }, list) };
}

/** The controls of a board with this table; `choose(option)` hears of each option that is chosen. */
export function optionsOf(table, choose) {
  const key = listOf('Key', CHOOSE, keysInTable(table).map(({ number, has }) => [`${number}: ${has || 'no legend'}`, number]));
  const sends = listOf('sends', '..', TABLES.keys.map(name => [name, name]));
  const act = (text, words, needs = [key]) => {
    const button = make('button', { type: 'button', textContent: text });
    button.onclick = () => choose(words());
    const allow = () => { button.disabled = needs.some(({ list }) => list.value === ''); };
    for (const { list } of needs) list.addEventListener('change', allow);
    allow();
    return button;
  };
  return make('details', { className: 'board-options' }, make('summary', { textContent: 'Change what its keys do' }), make('div', { className: 'bar' },
    key.element, sends.element, act('Let it send this', () => ['--key', `${key.list.value}=${sends.list.value}`], [key, sends]),
    act('Make it Fn', () => ['--fn', key.list.value]), act('Leave it out', () => ['--without', key.list.value]), act('No key is Fn', () => ['--no-fn'], [])));
}
