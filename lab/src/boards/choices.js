// The words of from_kle: what the options choose, and the files' names. Of wrong words it is said which is wrong.
import { likelyKey } from './legend_words.js';
import { nearest } from './nearest.js';
import { DIODES } from './qmk_board.js';
import { pairOf } from './refused.js';
import { TABLES } from './tables.js';

/** The words haven't the form. */
export class WrongWords extends Error {}

const A_KEY = '\\d+(?:,\\d+)?', KEY_FORM = new RegExp(`^${A_KEY}$`), KEY_IS = new RegExp(`^(${A_KEY})=(.+)$`);
const LEFT_OUT = ['unknown', 'doubles'], NO_KEY = 'a key is said by its row and number or its place in the matrix, as in 3,5';

/** What a key sends by the words: its number and a name of the 84. */
function takeKey(choices, value) {
  const [, number, name] = KEY_IS.exec(value) ?? [];
  if (!number) return false;
  if (!TABLES.keys.includes(name)) {
    const meant = likelyKey(name) ?? nearest(name, TABLES.keys);
    throw new WrongWords(`--key ${value}: there is no key ${name}; ${meant ? `did you mean --key ${number}=${meant}?` : `the keys are ${TABLES.keys.join(' ')}`}`);
  }
  choices.keys.set(number, name);
  return true;
}

// Each option: what its value is, in words; and a function that takes it, or says no. One without a value has no words for it.
const CHOOSING = {
  '--layout': ["the name of one of the file's layouts", (choices, value) => Boolean(value) && !value.startsWith('-') && Boolean(choices.layout = value)],
  '--option': ['two numbers, an option and its choice, as in 0,1', (choices, value) => Boolean(pairOf(value)) && choices.options.push(pairOf(value))],
  '--diodes': ['COL2ROW or ROW2COL', (choices, value) => DIODES.includes(value) && Boolean(choices.diodes = value)],
  '--layer': ["a layer's name and number, as in _LOWER=2", (choices, value) => {
    const [, name, number] = /^([A-Za-z_]\w*)=(\d{1,3})$/.exec(value) ?? [];
    return Boolean(name) && choices.layers.push([name, Number(number)]);
  }],
  '--without': [`a key, unknown, or doubles; ${NO_KEY}`, (choices, value) => (KEY_FORM.test(value) || LEFT_OUT.includes(value)) && choices.without.add(value)],
  '--key': [`a key and what it sends, as in 1,14=backspace; ${NO_KEY}`, takeKey],
  '--fn': [`a key; ${NO_KEY}`, (choices, value) => KEY_FORM.test(value) && Boolean(choices.fn = value)],
  '--no-fn': [null, choices => { choices.noFn = true; }],
  '--doubles': [null, choices => { choices.doubles = true; }],
  '--any-keyboard': [null, choices => { choices.anyKeyboard = true; }],
  '--count': [null, choices => { choices.counted = true; }],
  '--table': [null, choices => { choices.prints.add('table'); }],
  '--wiring': [null, choices => { choices.prints.add('wiring'); }],
};

/** The option that a word is, with `=` and its value, as some programs have it, or without. */
function optionOf(word) {
  if (Object.hasOwn(CHOOSING, word)) return word;
  const [name, value] = word.split(/=(.*)/s);
  if (Object.hasOwn(CHOOSING, name) && CHOOSING[name][0]) throw new WrongWords(`${word}: a space is between an option and its value: ${name} ${value}`);
  const meant = nearest(word, Object.keys(CHOOSING));
  throw new WrongWords(`${word}: there is no such option${meant ? `; did you mean ${meant}?` : ''}`);
}

function choose(choices, option, left) {
  const [form, take] = CHOOSING[option];
  if (form === null) {
    take(choices);
    return;
  }
  if (!left.length) throw new WrongWords(`${option} takes ${form}, and nothing comes after it`);
  const value = left.shift();
  if (!take(choices, value)) throw new WrongWords(`${option} ${value}: ${option} takes ${form}`);
}

/** What the options choose, and the files' names. */
export function choicesOf(words) {
  const choices = {
    layout: null, options: [], diodes: null, counted: false, without: new Set(), keys: new Map(), fn: null, noFn: false, doubles: false,
    layers: [], anyKeyboard: false, prints: new Set(),
  };
  const names = [], left = [...words];
  while (left.length) {
    const word = left.shift();
    if (word.startsWith('-') && word !== '-') choose(choices, optionOf(word), left);
    else names.push(word);
  }
  if (!names.length) throw new WrongWords('there is no file: its name comes after the options');
  if (names.length > 2) throw new WrongWords(`${names[2]}: it is one file too many; from_kle takes a board and at most one keymap`);
  for (const [one, other] of [['--fn', '--no-fn'], ['--table', '--wiring']]) {
    const isChosen = { '--fn': choices.fn, '--no-fn': choices.noFn, '--table': choices.prints.has('table'), '--wiring': choices.prints.has('wiring') };
    if (isChosen[one] && isChosen[other]) throw new WrongWords(`${one} and ${other} exclude each other`);
  }
  return { choices, names };
}

/** Each key that the words name is there. */
export function judgeNamedKeys(keys, choices, refused) {
  const numbers = keys.map(key => key.number), named = [...choices.without, ...choices.keys.keys(), ...choices.fn ? [choices.fn] : []];
  const [strange] = named.filter(it => !LEFT_OUT.includes(it) && !numbers.includes(it)).sort();
  if (strange !== undefined) refused(`it has no key ${strange}; keys are named as messages have them, ${numbers[0]} for ${keys[0].where}`);
}
