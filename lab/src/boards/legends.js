// From the legends of a board's keys to the keys of the 84 that they name.
import { COUNTRIES, countryOf } from './countries.js';
import { KeyPlaces } from './legend_places.js';
import { withoutFront } from './front_legends.js';
import { legendPieces, shownLegends } from './legend_text.js';
import { BY_PLACE, knownKey, likelyKey, namesOf, saidBy } from './legend_words.js';
import { Refused, isLeftOut } from './refused.js';
import { TABLES } from './tables.js';

// The keypad's keys by the character on them; "" if the 84 don't have it.
const KEYPAD = TABLES.words.keypad;
const AT_ONCE = 6; // keys that a refusal names
const NUM_OFF = 'means this while Num Lock is off', STAR_LEGEND = 'types * without Shift, and prints the screen with it';
const WIDE_KEY = 1.5, SHIFT_KEYS = ['lshift', 'rshift'];
const isSideways = word => ['kp4', 'kp6'].includes(word.key) || word.plain === '⟵';

// Why the legends of a key can't be read, which key they may mean, and which one they are merely like.
class Unclear extends Error {
  constructor(words, guess = null, like = null) {
    super(words);
    Object.assign(this, { guess, like });
  }
}

/** The pieces of the two legends that say what a key is: the first and the second, or the only one that it has elsewhere. */
function mainLegends(key) {
  const seen = key.legends.map(legendPieces), first = seen.slice(0, 2).flat(), rest = seen.filter(pieces => pieces.length);
  return first.length ? first : rest.length === 1 ? rest[0] : [];
}

const isDigit = text => /^[0-9]$/.test(text);

/** What a key says: its main legends, or if they make no sense alone all that aren't at its front. */
function sayingOf(key) {
  const said = saidBy(mainLegends(key));
  if (!said.unknown.length && namesOf(said.words).names.length < 2) return said;
  const every = saidBy(withoutFront(key).legends.flatMap(legendPieces));
  return every.unknown.length || namesOf(every.words).names.length > 1 ? said : every;
}

/** The only arrow or like sign that a key has, or nothing. */
function signOf({ words, characters }) {
  return words.length === 1 && !characters.length && /^[^\p{L}\p{N}]{1,2}$/u.test(words[0].text) ? words[0].text : '';
}

const hasDigit = ({ words, characters }) => characters.length === 1 && isDigit(characters[0]) && words.every(word => word.isMove);

/** Which keys are the keypad: all if the board has no letter; a block of nine digits; or else those below and beside Num Lock. */
function keypadOf(keys, said, places) {
  const digits = [...said.keys()].filter(at => hasDigit(said[at]));
  if (!said.some(say => say.characters.some(character => /^\p{L}$/u.test(character)))) {
    return new Set(digits.length ? keys.keys() : []);
  }
  const nine = places.keypad() ?? new Set();
  for (const [at, { words }] of said.entries()) {
    if (namesOf(words).names.join() !== 'num') continue;
    const { x: left, y: top } = keys[at], isBeside = key => key.x - left >= -0.6 && key.x - left <= 3.6 && key.y >= top - 0.1;
    const block = new Set([...keys.keys()].filter(other => isBeside(keys[other])));
    if (digits.filter(digit => block.has(digit)).length >= 6) return new Set([...nine, ...block]);
  }
  return nine;
}

// The keys of a board, read one by one. A reading is the key of the 84 that the legends name, "" if none, and what is told.
class Legends {
  constructor(keys, { without, keys: said }) {
    Object.assign(this, { keys, without, byWords: said, said: keys.map(sayingOf), taken: new Set(said.values()), passedOver: [] });
    this.places = new KeyPlaces(keys, this.said);
    this.keypad = keypadOf(keys, this.said, this.places);
    this.country = countryOf(this.said, this.keypad);
    const named = this.#named();
    this.hasBackspace = named.has('backspace');
    this.hasTab = named.has('tab');
    this.hasEnter = named.has('enter');
    this.hasPad = this.said.some(say => hasDigit(say) && say.words.length);
    this.bottom = Math.max(...keys.map(key => key.y));
  }

  // The names that are taken by words: those of `--key`, and those of each key that it doesn't name, that isn't left out, and whose
  // words are of one key.
  #named() {
    const read = [...this.keys.keys()].filter(at => !this.byWords.has(this.keys[at].number) && !isLeftOut(this.keys[at], this.without));
    const names = read.map(at => namesOf(this.said[at].words).names).filter(its => its.length === 1);
    return new Set([...this.byWords.values(), ...names.flat()]);
  }

  /** What each key is. Keys that can't be read are refused together, but for those that may be left out. */
  all() {
    const readings = this.keys.map(key => ({ name: this.byWords.get(key.number) ?? '', note: '' })), unclear = [];
    const isAlone = at => this.said[at].characters.length === 1;
    // Keys with two characters first, so that a lone one can be seen to be the keypad's.
    for (const at of [...this.keys.keys()].sort((a, b) => isAlone(a) - isAlone(b))) {
      if (isLeftOut(this.keys[at], this.without) || readings[at].name) continue;
      try {
        readings[at] = { note: '', ...this.#reading(at) };
        this.taken.add(readings[at].name);
      } catch (why) {
        if (!(why instanceof Unclear)) throw why;
        unclear.push([at, why]);
      }
    }
    if (unclear.length && !this.without.has('unknown')) throw new Refused(this.#ofUnclear(unclear.sort(([a], [b]) => a - b)));
    return readings;
  }

  // Why a board is refused some of whose keys can't be read, with the options that mend it.
  #ofUnclear(unclear) {
    const keys = unclear.slice(0, AT_ONCE).map(([at, why]) => `${this.keys[at].where}: ${why.message}`);
    if (unclear.length > AT_ONCE) keys.push(`and so on, ${unclear.length} keys`);
    if (2 * unclear.length > this.keys.length) return `${keys.join('; ')}; a keymap says what keys send that have no such legends`;
    const [[first]] = unclear, { number } = this.keys[first];
    return `${keys.join('; ')}; ${this.#namings(unclear)}, --without ${number} leaves ${unclear.length === 1 ? 'it' : 'the first'} out, `
      + '--without unknown every such key; a keymap can say what they are';
  }

  // The options that say what keys send: by what their legends may mean, by their places, or by words that they are like, as far as
  // no other key has the name.
  #namings(unclear) {
    const guesses = unclear.map(([at, { guess, like }]) => {
      const names = [guess, this.places.nameByRow(at, this.taken), like];
      return [this.keys[at].number, names.find(name => name && !this.taken.has(name))];
    });
    const guessed = guesses.filter(([, name]) => name).slice(0, AT_ONCE), isFirst = guessed[0]?.[0] === guesses[0][0];
    const [number, name] = isFirst ? guessed[0] : [guesses[0][0], 'NAME'];
    const others = guessed.slice(isFirst ? 1 : 0).map(([other, its]) => `--key ${other}=${its}`);
    return `--key ${number}=${name} says what ${unclear.length === 1 ? 'it' : 'the first'} is${others.length ? ` (likewise ${others.join(' ')})` : ''}`;
  }

  #reading(at) {
    const key = this.keys[at], said = this.said[at], isSaid = said.words.length + said.characters.length > 0;
    if (said.unknown.length) throw this.#ofUnknown(key, said);
    if (said.icons.length && !isSaid) throw new Unclear(`its icon ${said.icons.join(' ')} isn't known`);
    if (said.icons.length) this.passedOver.push(`${said.icons.join(' ')} (${key.where})`);
    if (said.words.length) return said.characters.length ? this.#ofBoth(at) : this.#ofWords(at);
    if (said.characters.length) return { name: this.#ofCharacters(at, said.characters.slice(0, 2)) };
    return this.#ofBlank(key);
  }

  // Why a word isn't known, with the key of one beside it, or else of one that it is like.
  #ofUnknown(key, { words, unknown }) {
    const [beside = knownKey(unknown[0])] = words.filter(word => !word.isMove).map(word => knownKey(word.text)).filter(Boolean);
    return new Unclear(`its legend ${shownLegends(key)} isn't known`, beside, likelyKey(unknown.join('')));
  }

  // A key without legends, which is Space if it is wide.
  #ofBlank(key) {
    if (key.width >= 3) return { name: 'space' };
    if (key.width >= 2 && key.y === this.bottom && !key.legends.some(Boolean)) return { name: 'space', note: 'is taken as Space' };
    return { name: '' };
  }

  // A key with a character and a word, which is the keypad's: a digit or point with its move, or * with Print Screen. A picture
  // beside a word means nothing.
  #ofBoth(at) {
    const key = this.keys[at], said = this.said[at];
    if (said.characters.every(character => /^\p{So}$/u.test(character))) return this.#ofWords(at);
    const [mark] = said.characters, pads = KEYPAD[mark], { names } = namesOf(said.words);
    if (said.characters.length === 1 && pads && pads !== 'kp5' && names.every(name => name === pads)) {
      return pads === 'prtsc' ? { name: pads, note: STAR_LEGEND } : { name: pads };
    }
    if (said.characters.length === 1 && pads === 'kp5' && said.words.every(word => word.isMove)) return { name: pads };
    throw new Unclear(`its legends ${shownLegends(key)} are of two keys`, this.country.keyOf(said.characters.slice(0, 2)) || names[0]);
  }

  #ofWords(at) {
    const key = this.keys[at], said = this.said[at], { words, names } = namesOf(said.words), isWide = key.width >= WIDE_KEY;
    if (names.length > 1 && words.every(isSideways) && !this.hasTab && this.places.nameByRow(at) === 'tab') {
      return this.#takenAs(at, 'Tab');
    }
    if (names.length > 1) throw new Unclear(`its legends ${shownLegends(key)} are of two keys`, names.find(name => name && name !== 'shift'));
    if (isWide && words.length === 1 && words[0].plain === '⇑' && SHIFT_KEYS.includes(this.places.nameByRow(at))) return this.#takenAs(at, 'Shift');
    if (BY_PLACE[names[0]]) return this.#ofEither(at, BY_PLACE[names[0]]);
    const name = names[0] !== 'shift' ? names[0] : this.taken.has('lshift') ? 'rshift' : 'lshift', sign = signOf(said);
    if (isWide && name === 'kpdot' && !this.hasBackspace) return wideBackspace;
    if (sign && this.#isEnterByPlace(at)) return { name: 'enter', note: 'is taken as Enter, since the key ends a row of letters' };
    if (sign && name === 'kp4' && !this.hasBackspace && !this.keypad.has(at) && this.places.endsDigits(at)) {
      return isWide ? wideBackspace : { name: 'backspace', note: 'is taken as Backspace, since the key ends the row of digits' };
    }
    if (sign && isWide && words[0].isMove) return this.#ofWideArrow(at, name, sign);
    if (words[0].isMove) return { name, note: NUM_OFF };
    if (name === 'prtsc') return { name, note: STAR_LEGEND };
    return { name, note: name === 'caps' && words[0].text.toLowerCase().includes('shift') ? 'is taken as Caps Lock' : '' };
  }

  // Whether an arrow to the left ends a row of letters, while no key says Enter and another key is Backspace, by its word or its place.
  #isEnterByPlace(at) {
    const showsLeft = it => signOf(this.said[it]) && this.said[it].words[0].key === 'kp4' && !this.keypad.has(it);
    if (!showsLeft(at) || this.hasEnter || this.places.nameByRow(at, this.taken) !== 'enter') return false;
    const isOther = it => it !== at && showsLeft(it) && !isLeftOut(this.keys[it], this.without);
    return this.hasBackspace || [...this.keys.keys()].some(it => isOther(it) && this.places.endsDigits(it));
  }

  // A key whose word is one of several keys, which its row says.
  #ofEither(at, names) {
    const name = this.places.endOfRow(at), whole = { backspace: ['Backspace', 'the row of digits'], enter: ['Enter', 'a row of letters'] }[name];
    if (!names.includes(name)) throw new Unclear(`its legend ${shownLegends(this.keys[at])} may be ${names.join(' or ')}`, names.find(it => !this.taken.has(it)));
    return { name, note: `is taken as ${whole[0]}, since the key is in ${whole[1]}` };
  }

  // A key that is what it is by the keys beside it.
  #takenAs(at, name) { return { name: this.places.nameByRow(at), note: `is taken as ${name}, since the key is wide and ends its row` }; }

  // A wide key with an arrow alone: Backspace mostly; Shift if it shows up and is beside the lowest letters; Tab if it shows right
  // and is beside Q; Caps Lock if it is hollow, shows down and is beside A, as in Germany.
  #ofWideArrow(at, name, sign) {
    const key = this.keys[at], place = this.places.nameByRow(at);
    if (name === 'kp4' && !this.hasBackspace) return wideBackspace;
    if (sign.includes('\u21E9') && place === 'caps') return { name: 'caps', note: 'is taken as Caps Lock, since the key is wide and beside A' };
    if (name === 'kp8' && SHIFT_KEYS.includes(place)) return this.#takenAs(at, 'Shift');
    if (name === 'kp6' && place === 'tab') return this.#takenAs(at, 'Tab');
    throw new Unclear(`its legend ${shownLegends(key)} is on a wide key, which may be Shift, Tab or another`);
  }

  // A key with one or two characters. A lone one that was there before is the keypad's.
  #ofCharacters(at, characters) {
    const [first] = characters, alone = characters.length === 1, isPads = alone && Object.hasOwn(KEYPAD, first);
    if (isPads && this.keypad.has(at)) return KEYPAD[first];
    const name = this.country.keyOf(characters);
    if (isPads && !this.keypad.size && (this.taken.has(name) || (name === null && this.hasPad))) return KEYPAD[first];
    if (name === null && alone && this.country.shifts(first)) {
      throw new Unclear(`its only legend ${first} is typed with Shift in ${this.country.name}`, this.country.shifts(first));
    }
    if (name === null) throw new Unclear(`its legends ${shownLegends(this.keys[at])} are on no key of ${this.country.name}`, this.places.nameByRow(at) === 'esc' ? 'grave' : null);
    return name;
  }
}

const wideBackspace = { name: 'backspace', note: 'is taken as Backspace, since the key is wide and no other key says so' };

/** What each key is, the country whose keys they are, and what is told of the board's legends as a whole. */
export function readLegends(keys, choices) {
  if (!keys.some(key => mainLegends(key).length)) throw new Refused('none of its keys has a legend; a keymap says what they send');
  const legends = new Legends(keys, choices), readings = legends.all(), { country, passedOver } = legends;
  const told = [
    ...country === COUNTRIES[0] ? [] : [`the legends are read as those of ${country.name}`],
    ...passedOver.length ? [`icons that aren't known are passed over: ${passedOver.join(', ')}`] : [],
  ];
  return { readings, country, told };
}
