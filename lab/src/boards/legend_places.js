// What the places of keys beside each other say: which keys are the keypad, and what a key is by the keys beside it.

const SAME_ROW = 0.3, NEXT = 0.6, WIDE = 1.5; // in keys
const PAD = { 7: [0, 0], 8: [1, 0], 9: [2, 0], 4: [0, 1], 5: [1, 1], 6: [2, 1], 1: [0, 2], 2: [1, 2], 3: [2, 2] };
const isNear = (one, other) => Math.abs(one - other) < SAME_ROW;

/** The character of a key that has one letter or digit, in lower case; or "". */
const characterOf = ({ characters }) => (characters.length === 1 || !/[\p{L}\p{N}]/u.test(characters[0] ?? '') ? characters.at(-1) ?? '' : characters[0]).toLowerCase();

// The letters by which a row is known, of all boards with Latin letters; the key after which the others of the row follow, with their
// names; and the key before the first one.
const LETTER_ROWS = [
  { known: [...'23456789'], last: '0', after: [['minus'], ['equal'], ['backspace', 'backslash'], ['backspace']], first: '1', before: 'esc', wide: 'backspace' },
  { known: [...'ertuio'], last: 'p', after: [['lbracket'], ['rbracket'], ['backslash', 'enter'], ['enter']], first: 'qa', before: 'tab', wide: 'enter' },
  { known: [...'sdfghjk'], last: 'l', after: [['semicolon'], ['quote'], ['enter', 'backslash'], ['enter']], first: 'aq', before: 'caps', wide: 'enter' },
  { known: [...'xcvbn'], last: 'm', after: [['comma'], ['period'], ['slash', 'rshift'], ['rshift']], first: 'zyw', before: 'lshift', wide: 'rshift' },
];
const FEWEST_OF_ROW = 4;

/** The keys of a board with what they say. */
export class KeyPlaces {
  constructor(keys, said) {
    Object.assign(this, { keys, said, characters: said.map(characterOf) });
  }

  /** The keys of a row, from left to right. */
  #row(at) {
    const { y } = this.keys[at];
    return [...this.keys.keys()].filter(other => isNear(this.keys[other].y, y)).sort((a, b) => this.keys[a].x - this.keys[b].x);
  }

  /** Which keys are the keypad's by a block of nine digits: three columns and what is right of them, from the row above. */
  keypad() {
    const find = (digit, x, y) => this.keys.some((key, at) => this.said[at].characters.includes(digit) && isNear(key.x, x) && isNear(key.y, y));
    for (const [at, { x, y }] of this.keys.entries()) {
      if (!this.said[at].characters.includes('7') || !Object.entries(PAD).every(([digit, [right, down]]) => find(digit, x + right, y + down))) continue;
      return new Set([...this.keys.keys()].filter(other => {
        const key = this.keys[other];
        return key.x >= x - SAME_ROW && key.x <= x + 3.6 && key.y >= y - 1.1;
      }));
    }
    return null;
  }

  /** The row of letters or digits that a row of keys has, or undefined. */
  #lettersOf(row) {
    return LETTER_ROWS.find(({ known }) => known.filter(letter => row.some(other => this.characters[other] === letter)).length >= FEWEST_OF_ROW);
  }

  /** What a key is by the letters or digits of its row, on boards that are like most; or null. Names that are taken don't count. */
  nameByRow(at, taken = new Set()) {
    const row = this.#row(at), here = row.indexOf(at), { width } = this.keys[at], letters = this.#lettersOf(row);
    if (!letters) return width >= 3 ? 'space' : null;
    const { last, after, first, before, wide } = letters;
    const begin = row.findIndex(other => first.includes(this.characters[other] || '-')), end = row.findIndex(other => this.characters[other] === last);
    if (begin >= 0 && here === begin - 1) return before;
    if (end < 0 || here <= end) return null;
    if (width >= WIDE && !taken.has(wide)) return wide;
    return after[here - end - 1]?.find(name => !taken.has(name)) ?? null;
  }

  /** The wide key that ends rows like that of a key: Backspace, Enter or Shift; or null. */
  endOfRow(at) { return this.#lettersOf(this.#row(at))?.wide ?? null; }

  /** Whether a key is the last of the digits' row, but for keys that are apart from it. */
  endsDigits(at) {
    const row = this.#row(at), here = row.indexOf(at), left = this.keys[row[here - 1]], key = this.keys[at];
    const digits = row.slice(0, here).filter(other => this.said[other].characters.some(it => '1234567890'.includes(it)));
    return digits.length >= 9 && here - row.indexOf(digits.at(-1)) >= 2 && key.x - left.x - left.width < NEXT;
  }
}
