// A list of lines that scrolls. All lines have one height, so the page knows which are in sight, and needn't ask the browser: it
// would lay the page out for each answer.
import { scrollLater } from './dom.js';

const LOWEST = 40; // pixels above the end, for the last line that counts as in sight

export class InSight {
  constructor(element) {
    Object.assign(this, { element, top: 0, height: 0, lineHeight: 0, line: null });
    // When the browser says these, it has the page laid out, or does it next.
    element.addEventListener('scroll', () => { this.top = element.scrollTop; });
    new ResizeObserver(() => this.#measure()).observe(element);
  }

  /** Brings a line, by its number from 0, to the middle, unless it is in sight. */
  show(line) {
    this.line = line;
    if (!this.height) return;
    this.lineHeight ||= this.element.firstElementChild.offsetHeight;
    const top = line * this.lineHeight;
    if (top >= this.top && top <= this.top + this.height - LOWEST) return;
    this.top = Math.max(0, top - this.height / 2);
    scrollLater(this.element, this.top);
  }

  // The list has another size. Only now it is known what is in sight, if it has just been shown.
  #measure() {
    const { element, height } = this;
    Object.assign(this, { top: element.scrollTop, height: element.clientHeight, lineHeight: 0 });
    if (height === 0 && this.line !== null) this.show(this.line);
  }
}
