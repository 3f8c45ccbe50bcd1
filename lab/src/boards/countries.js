// The keys of countries by their characters: at each of the 84 places what is typed there, with Shift and without.
import { charactersOf, isAlnum } from './refused.js';
import { TABLES, wordsIn } from './tables.js';

const KEY_PLACES = wordsIn(TABLES.countries.places), LETTER_ROW = 'qwertyuiop', NO_PAIR = '--', ALPHABET = 'abcdefghijklmnopqrstuvwxyz';
// How many keys must be another country's than the US's before a board is read as that country's; fewer do if the board has so
// many keys with signs, and they are all of that country.
const FEW_KEYS = 3, MANY_KEYS = 6;

export const COUNTRIES = [];

class Country {
  constructor({ name, rows, letters = '', others = '><', also = null }) {
    const keys = wordsIn(rows).map((pair, at) => [KEY_PLACES[at], pair]).filter(([, pair]) => pair !== NO_PAIR);
    const own = wordsIn(letters).map(word => [charactersOf(word)[0], charactersOf(word).slice(1).join('')]);
    Object.assign(this, {
      name, keys, also: COUNTRIES.find(country => country.name === also) ?? null, letters: new Map([...charactersOf(ALPHABET).map(letter => [letter, letter]), ...own]),
      pairs: [...keys, ...wordsIn(others).map(pair => ['', pair])],
    });
  }

  /** The key with these one or two legends, "" if the 84 haven't it, or null if no key of the country has them. One character
      alone is what its key types without Shift. */
  keyOf(characters) { return this.#own(characters) ?? this.also?.keyOf(characters) ?? null; }

  #own(characters) {
    const [first, second] = characters, [letter, other] = characters.map(it => this.letter(it)), alone = characters.length === 1;
    if (letter !== null && (alone || other === null || other === letter)) return letter;
    if (alone) {
      if (/^[0-9]$/.test(first)) return first;
      return this.#found(pair => [first, first.toLowerCase()].includes(charactersOf(pair).at(-1)));
    }
    if (other !== null && !isAlnum(first)) return other;
    const wanted = new Set([first, second]);
    return this.#found(pair => {
      const here = new Set(pair);
      return here.size === wanted.size && [...here].every(it => wanted.has(it));
    });
  }

  #found(fits) { return this.pairs.find(([, pair]) => fits(pair))?.[0] ?? null; }

  /** The key of a letter, in either case, or null. */
  letter(character) { return this.letters.get(character) ?? this.letters.get(character.toLowerCase()) ?? null; }

  /** The key that types this character alone, "" if the 84 don't have it; or null. */
  types(character) { return this.letter(character) ?? this.#found(pair => charactersOf(pair).at(-1) === character); }

  /** The key that types this character with Shift, or undefined. */
  shifts(character) { return this.keys.find(([, pair]) => charactersOf(pair).length === 2 && charactersOf(pair)[0] === character)?.[0]; }
}

for (const country of TABLES.countries.countries) COUNTRIES.push(new Country(country));

/** Whether the upper row of letters comes in the order in which this country has it. */
function isInOrder(country, said) {
  const letters = said.filter(say => say.characters.length === 1).map(say => country.letter(say.characters[0]));
  const upper = letters.filter(key => key && LETTER_ROW.includes(key));
  return upper.length > 3 && LETTER_ROW.includes(upper.join(''));
}

// Which country's the legends with characters are.
class Choosing {
  constructor(said, keypad) {
    const plain = say => say.characters.length && !say.words.length && !say.unknown.length;
    this.said = said.filter(plain);
    this.main = said.filter((say, at) => plain(say) && (!keypad.has(at) || say.characters.length > 1));
  }

  /** The keys that this country hasn't. */
  strange(country) { return this.main.filter(say => country.keyOf(say.characters.slice(0, 2)) === null); }

  /** Whether the legends show that it is this country, and not the US. */
  isShown(country) {
    const [us] = COUNTRIES;
    if (country === us) return true;
    const own = this.strange(us).filter(say => country.keyOf(say.characters.slice(0, 2)) !== null);
    const foreign = own.some(say => say.characters.some(character => character.codePointAt(0) > 126));
    const turned = isInOrder(country, this.said) && !isInOrder(us, this.said);
    const signs = this.main.filter(say => !say.characters.some(isAlnum));
    const alone = own.length > 0 && signs.length >= MANY_KEYS && isInOrder(country, this.said) && !this.strange(country).length;
    return foreign || turned || alone || own.length >= FEW_KEYS;
  }

  /** The country that has the most of the keys; of those the one with the letters in this order. */
  country() {
    const rated = COUNTRIES.filter(country => this.isShown(country))
      .map(country => ({ country, strange: this.strange(country).length, order: isInOrder(country, this.said) ? 0 : 1 }));
    return rated.reduce((best, it) => (it.strange - best.strange || it.order - best.order) < 0 ? it : best).country;
  }
}

/** The country whose keys a board has, by what its keys say; some of them are the keypad. */
export const countryOf = (said, keypad) => new Choosing(said, keypad).country();
