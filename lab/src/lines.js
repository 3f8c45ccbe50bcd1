// A list that grows at its end, as lines of text. Only new lines are made. The lines of one picture are one block of text, because
// each element costs the browser a layout of its own.
import { make, scrollToEnd } from './dom.js';

const SHOWN = 200, NEAR = 4; // lines, at least; pixels

export class Lines {
  /** `textOf(entry)` answers the line of an entry. */
  constructor(element, textOf) {
    Object.assign(this, { element, textOf, last: undefined, blocks: [], isAtEnd: true, isFresh: false });
    element.addEventListener('scroll', () => { this.isAtEnd = element.scrollTop + element.clientHeight >= element.scrollHeight - NEAR; });
  }

  clear() {
    this.element.replaceChildren();
    this.blocks = [];
    this.last = undefined;
    this.isAtEnd = true;
  }

  /** Shows the last of these entries. */
  show(entries) {
    const had = entries.lastIndexOf(this.last);
    if (had < 0) this.clear();
    const fresh = entries.slice(Math.max(had + 1, entries.length - SHOWN)), { blocks } = this;
    if (fresh.length === 0) return;
    blocks.push({ many: fresh.length, element: make('div', { textContent: `${fresh.map(this.textOf).join('\n')}\n` }) });
    this.element.append(blocks.at(-1).element);
    let many = blocks.reduce((sum, block) => sum + block.many, 0);
    for (; many - blocks[0].many >= SHOWN; blocks.shift().element.remove()) many -= blocks[0].many;
    this.last = entries.at(-1);
    this.isFresh = true;
  }

  /** The end stays in sight, unless somebody has scrolled back. Whoever shows several lists scrolls after the last, since the
      browser lays the page out for it. */
  scroll() {
    if (this.isFresh && this.isAtEnd) scrollToEnd(this.element);
    this.isFresh = false;
  }
}
