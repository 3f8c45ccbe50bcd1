// The words and signs on keys, by the key that each is of.
import { nearest } from './nearest.js';
import { charactersOf, isAlnum } from './refused.js';
import { TABLES, namesByWord, wordsIn } from './tables.js';

const LONGEST_WORD = 6; // pieces
// Signs that mean nothing beside the words of some keys: the arrow of Backspace, Tab, Enter, Shift or a lock.
const ARROWS = charactersOf(TABLES.words.arrows), WITH_ARROWS = wordsIn(TABLES.words.with_arrows);
// Words that mean nothing beside a key's name, since they say what it does with Ctrl or Alt.
const WITH_MORE = Object.fromEntries(Object.entries(TABLES.words.beside).map(([key, words]) => [key, wordsIn(words)]));

/** A piece of a legend in lower case; marks in and on the letters of a word are passed over. */
function plainForm(piece) {
  let token = piece.replaceAll('\uFE0F', '');
  if (charactersOf(token).length > 1 && charactersOf(token).some(isAlnum)) {
    token = token.replace(/[._/]|(?<=[\p{L}\p{N}_])-(?=[\p{L}\p{N}_])/gu, '') || token;
    token = token.normalize('NFD').replace(/\p{M}/gu, '');
  }
  return token.toLowerCase();
}

/** The words and signs of a table, each with its key and whether that is a move. */
const known = (table, isMove) => Object.entries(namesByWord(table)).map(([word, key]) => [plainForm(word), { key, isMove }]);

// Words that are one of several keys, each with these; such a word is its own key until its place says which.
export const BY_PLACE = Object.fromEntries(Object.entries(TABLES.words.by_place).map(([word, keys]) => [word, wordsIn(keys)]));

const FUNCTION_KEYS = Array.from({ length: 24 }, (_, at) => `f${at + 1}`), FIRST_OTHER = 10;
const VOCABULARY = new Map([
  ...[...wordsIn(TABLES.words.others), ...wordsIn(TABLES.words.fn), ...FUNCTION_KEYS.slice(FIRST_OTHER)].map(word => [plainForm(word), { key: '', isMove: false }]),
  ...FUNCTION_KEYS.slice(0, FIRST_OTHER).map(name => [name, { key: name, isMove: false }]),
  ...Object.keys(BY_PLACE).map(word => [word, { key: word, isMove: false }]),
  ...known(TABLES.words.keys, false), ...known(TABLES.words.shifts, false), ...known(TABLES.words.moves, true),
]);

/** The word that the first pieces make together, as many of them as do, with their number; or null. */
function longestWord(pieces) {
  for (let count = Math.min(pieces.length, LONGEST_WORD); count > 0; count--) {
    const text = pieces.slice(0, count).map(plainForm).join('');
    // A piece of one letter or digit is a character, and no abbreviation.
    if (!VOCABULARY.has(text) || (count === 1 && /^\w$/.test(pieces[0]))) continue;
    return { word: { text: pieces.slice(0, count).join(' '), plain: text, ...VOCABULARY.get(text) }, count };
  }
  return null;
}

/** The words of a piece that strokes part, as in esc/ctrl; or none if one of them isn't known. */
function strokedWords(piece) {
  const parts = piece.split('/').map(text => ({ text, plain: plainForm(text) }));
  return parts.every(({ plain }) => VOCABULARY.has(plain)) ? parts.map(part => ({ ...part, ...VOCABULARY.get(part.plain), isPicture: false })) : [];
}

/** What pieces say: the longest words that they make together, and else characters; and what isn't known. */
export function saidBy(pieces) {
  const said = { words: [], characters: [], unknown: [], icons: pieces.filter(piece => piece.plain === null).map(piece => piece.text) };
  let left = pieces.filter(piece => piece.plain !== null);
  while (left.length) {
    const found = longestWord(left.map(piece => piece.plain)), [{ plain, isIcon }] = left, first = charactersOf(plain), stroked = strokedWords(plain);
    if (found) said.words.push({ ...found.word, isPicture: isIcon || charactersOf(found.word.text).length === 1 });
    else if (first.length === 1 || (first.length <= 3 && first.filter(isAlnum).length < 2)) said.characters.push(...first);
    else if (stroked.length) said.words.push(...stroked);
    else said.unknown.push(plain);
    left = left.slice(found?.count ?? 1);
  }
  return said;
}

/** The keys that words name. An arrow beside Tab and the like says the same once more; a picture beside a key's name is what the
    machine that the board was made for does with it; and beside some keys a word says what they do with Ctrl or Alt. */
export function namesOf(all) {
  const hasArrows = all.some(word => WITH_ARROWS.includes(word.key)), words = hasArrows ? all.filter(word => !ARROWS.includes(word.text)) : all;
  const named = words.filter(word => word.key || !word.isPicture);
  const kept = named.length ? named : words, more = new Set(kept.flatMap(word => WITH_MORE[word.key] ?? []));
  const left = kept.filter(word => !(word.key === '' && more.has(word.plain)) && !(word.key && more.has(word.key)));
  const keys = left.map(word => word.key), names = [...new Set(keys.filter(key => !BY_PLACE[key]?.some(it => keys.includes(it))))];
  const isShift = names.length > 1 && names.every(name => ['shift', 'lshift', 'rshift'].includes(name));
  return { words: left, names: isShift ? names.filter(name => name !== 'shift') : names };
}

const SHORTEST = 4; // letters of a word whose likely meaning can be said
const sided = key => (key === 'shift' ? 'lshift' : BY_PLACE[key] ? null : key ?? null);

/** The key that a word names that is known by itself; or null. */
export const knownKey = word => sided(VOCABULARY.get(plainForm(word))?.key || null);

/** The key of a known word that an unknown one is like; or null. */
export function likelyKey(word) {
  const plain = plainForm(word), words = [...VOCABULARY.keys()].filter(it => it.length >= SHORTEST && VOCABULARY.get(it).key);
  return sided(plain.length >= SHORTEST ? VOCABULARY.get(nearest(plain, words))?.key : null);
}
