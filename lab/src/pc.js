// A program on the PC: it shows what is typed, and sets the lights after a lock key, as the AT's BIOS did.
import { make, scrollToEnd } from './dom.js';

const LOCKS = { 0x46: 1, 0x45: 2, 0x3A: 4 };
const BREAK = 0x80, SET_LIGHTS = 0xED;
const BACKSPACE = 8, ENTER = 13, FIRST = 32, LAST = 126; // characters
const ROW_OF_SCREEN = 80, KEPT_OF_SCREEN = 50; // characters; rows
const CURSOR = '▁';

export class Pc {
  /** `order(port, byte)` lets the PC write a byte; its screen is drawn into an element. */
  constructor(order, element) {
    Object.assign(this, { order, lights: 0, lock: 0, unsaid: '', screen: new Screen(element) });
  }

  byte(byte) {
    if (byte === (this.lock | BREAK)) this.lock = 0;
    else if (LOCKS[byte] && byte !== this.lock) {
      this.lock = byte;
      this.lights ^= LOCKS[byte];
      this.order(0x60, SET_LIGHTS);
      this.order(0x60, this.lights);
    }
  }

  word(word) {
    const code = word & 255;
    this.screen.put(code);
    this.unsaid += code === BACKSPACE ? ' backspace ' : code === ENTER ? ' enter ' : code >= FIRST && code <= LAST ? String.fromCharCode(code) : '';
  }

  /** What was put on the screen since this was asked last. */
  takeUnsaid() {
    const { unsaid } = this;
    this.unsaid = '';
    return unsaid;
  }

  /** Whether the screen has a text that isn't drawn yet. */
  get isNew() { return this.screen.isNew; }

  draw() { this.screen.draw(); }
}

// Rows of text, each an element of its own: a letter more costs a picture of its row, not of the screen.
export class Screen {
  constructor(element) {
    Object.assign(this, { element, rows: [''], lines: [], drawn: [], isNew: true });
    element.replaceChildren();
    this.draw();
  }

  put(code) {
    const { rows } = this, last = rows.length - 1;
    this.isNew = true;
    if (code === BACKSPACE) {
      if (rows[last] === '' && last > 0) rows.pop();
      rows[rows.length - 1] = rows.at(-1).slice(0, -1);
    } else if (code === ENTER) {
      rows[last] += '\n';
      rows.push('');
    } else if (code >= FIRST && code <= LAST) {
      if (rows[last].length === ROW_OF_SCREEN) rows.push(String.fromCharCode(code));
      else rows[last] += String.fromCharCode(code);
    }
    if (rows.length <= KEPT_OF_SCREEN) return;
    rows.shift();
    this.lines.shift()?.remove();
    this.drawn.shift();
  }

  draw() {
    if (!this.isNew) return;
    this.isNew = false;
    const { element, rows, lines, drawn } = this;
    for (; lines.length > rows.length; drawn.pop()) lines.pop().remove();
    for (const [at, row] of rows.entries()) {
      const text = at === rows.length - 1 ? row + CURSOR : row;
      if (drawn[at] === text) continue;
      if (!lines[at]) element.append(lines[at] = make('div'));
      lines[at].textContent = drawn[at] = text;
    }
    scrollToEnd(element);
  }
}
