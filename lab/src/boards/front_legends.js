// Legends at the front of a board's keys: what the keys send under Fn, if the board has such a key.
import { legendPieces } from './legend_text.js';
import { namesOf, saidBy } from './legend_words.js';
import { isLeftOut } from './refused.js';
import { TABLES, wordsIn } from './tables.js';

const FRONT_PLACES = [4, 5, 11]; // the editor's numbers of the legends at a key's front
const FN_WORDS = wordsIn(TABLES.words.fn), NO_LAYER = { fn: undefined, under: new Map(), told: [] };

/** The key without the legends at its front. */
export const withoutFront = key => ({ ...key, legends: key.legends.filter((_, place) => !FRONT_PLACES.includes(place)) });

const allPiecesOf = key => key.legends.flatMap(legendPieces);

/** Which key of the 84 a legend names; or why it names none. */
function frontMeaning({ words, characters, unknown, icons }, country) {
  const { names } = namesOf(words), many = names.length + Boolean(characters.length);
  if (unknown.length + icons.length || !many) return { name: null, why: "it isn't known" };
  if (many > 1) return { name: null, why: 'it is of two keys' };
  const name = names.length ? names[0] : country.keyOf(characters.slice(0, 2));
  if (name === null) return { name, why: 'no key has it alone' };
  return { name: name === 'shift' ? 'lshift' : name || null, why: "the 84 keys don't have it" };
}

/** What the front of each key says that has a legend there and another elsewhere: its text, and what that means. */
function frontsOf(keys, country) {
  return keys.flatMap((key, at) => {
    const pieces = key.legends.filter((_, place) => FRONT_PLACES.includes(place)).flatMap(legendPieces);
    if (!pieces.length || !allPiecesOf(withoutFront(key)).length) return [];
    return [{ at, where: key.where, text: pieces.map(piece => piece.text).join(' '), ...frontMeaning(saidBy(pieces), country) }];
  });
}

/** The keys that say that they are Fn, and send nothing. */
function saysFn(keys, readings, without) {
  const isFn = key => namesOf(saidBy(allPiecesOf(withoutFront(key))).words).words.some(word => FN_WORDS.includes(word.plain));
  return keys.filter((key, at) => !readings[at].name && !isLeftOut(key, without) && isFn(key));
}

/** The key that is Fn by the words, or else the first that says so; undefined if none is. */
const fnOf = (keys, fns, { fn, noFn }) => (noFn ? undefined : fn ? keys.find(key => key.number === fn) : fns[0]);

/** The option that makes a key Fn: one that says so or else sends nothing, ready to copy. */
function wayToFn(keys, readings, fns) {
  const [free = keys.find((_, at) => !readings[at].name)] = fns;
  return free ? `--fn ${free.number} makes ${free.where} Fn` : '--fn makes a key Fn, as in --fn 3,5';
}

const shownFronts = fronts => fronts.map(({ text, where }) => `${text} (${where})`).join(', ');

/** A line for each reason why legends at the front mean nothing. */
function lostLines(fronts) {
  const reasons = [...new Set(fronts.map(({ why }) => why))];
  return reasons.map(why => `under Fn left out, since ${why}: ${shownFronts(fronts.filter(it => it.why === why))}`);
}

/** The key that is Fn, if one is; what the fronts of the others say by the number of each key in the list; and what is told. */
export function frontLayer(keys, readings, country, choices) {
  const fronts = frontsOf(keys, country);
  if (!fronts.length) return NO_LAYER;
  const fns = saysFn(keys, readings, choices.without), fn = fnOf(keys, fns, choices);
  if (!fn) {
    return { ...NO_LAYER, told: [`legends at the front aren't read, since no key is Fn; ${wayToFn(keys, readings, fns)}, and they are what the others send under it: ${shownFronts(fronts)}`] };
  }
  const judged = fronts.map(front => {
    if (keys[front.at] === fn) return { ...front, name: null, why: 'the key is Fn' };
    return readings[front.at].name ? front : { ...front, name: null, why: 'the key sends nothing without Fn' };
  });
  const others = fns.filter(key => key !== fn).map(key => `; --fn ${key.number} makes ${key.where} Fn`).join('');
  return {
    fn, under: new Map(judged.map(front => [front.at, front])),
    told: [`legends at the front are what keys send under Fn (${fn.where}); --no-fn passes them over${others}`, ...lostLines(judged.filter(front => !front.name))],
  };
}
