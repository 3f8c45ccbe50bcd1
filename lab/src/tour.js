// A tour of the page in five steps. Nothing is locked meanwhile: one does what a step says.
import { byId } from './dom.js';

const STEPS = [
  ['keyboard', 'board', 'Type: press A on your keyboard, or click it here. Your keys go to this keyboard while the line above it says so.'],
  ['wires', 'wave', 'Each byte passes over two wires, clock and data, in eleven bits. A key that goes up sends two bytes: F0, and its code again.'],
  ['wires', 'speed', 'Slow time down: choose a thousandth here and press a key. A bit then takes 80 ms, and you see data change before the clock falls.'],
  ['wires', 'commands', 'The PC talks too: press EE, the echo. The PC\'s pulls are blue, the keyboard\'s yellow. Choose real time again before you go on.'],
  ['lessons', 'lesson-title', 'The lessons change the program inside the keyboard. Each has a task, two hints, and a check that shows the first difference.'],
];

export class Tour {
  /** `show(pane)` shows a pane. */
  constructor(show) {
    Object.assign(this, { show, step: -1 });
    byId('tour-begin').onclick = () => this.#to(0);
    byId('tour-next').onclick = () => this.#to(this.step + 1);
    byId('tour-end').onclick = () => this.#to(-1);
  }

  #to(step) {
    document.querySelector('.toured')?.classList.remove('toured');
    this.step = step < STEPS.length ? step : -1;
    byId('tour').hidden = this.step < 0;
    if (this.step < 0) {
      byId('tour-begin').focus();
      return;
    }
    const [pane, id, text] = STEPS[this.step];
    this.show(pane);
    byId(id).classList.add('toured');
    byId(id).scrollIntoView({ block: 'center' });
    byId('tour-text').textContent = `${this.step + 1} of ${STEPS.length}. ${text}`;
    byId('tour-next').textContent = this.step === STEPS.length - 1 ? 'Done' : 'Next';
  }
}
