// A text of any length: its lines are put into the page as they come near to being seen.

const AT_FIRST = 1500, MORE_LINES = 1500, NEAR_END = 400; // lines, lines, pixels

export class LongText {
  constructor(element) {
    Object.assign(this, { element, text: '', put: 0 });
    element.addEventListener('scroll', () => {
      if (element.scrollTop + element.clientHeight > element.scrollHeight - NEAR_END) this.#more(MORE_LINES);
    });
  }

  show(text) {
    Object.assign(this, { text, put: 0 });
    this.element.textContent = '';
    this.#more(AT_FIRST);
    this.element.scrollTop = 0;
  }

  #more(lines) {
    if (this.put >= this.text.length) return;
    let end = this.put;
    for (let n = 0; n < lines && end >= 0; n++) {
      const next = this.text.indexOf('\n', end);
      end = next < 0 ? this.text.length : next + 1;
    }
    this.element.append(this.text.slice(this.put, end));
    this.put = end;
  }
}
