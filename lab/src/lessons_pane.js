// Lessons with tasks that the page checks. A lesson's file is one of the page's files, so the workbench and the processor have the
// same text.
import { ask } from './asking.js';
import { checked } from './checking.js';
import { firstOf, firstText, nameOf, saidOf } from './course/judged.js';
import { byId, fill, make, tell } from './dom.js';
import { files, offer, onFile, originals, put, replace, undo, undoable } from './files.js';
import { HandIns } from './hand_ins.js';
import { keeping } from './keeping.js';
import { LESSONS, PATHS } from './lessons.js';
import { instructionTables, sectionOf } from './manual.js';
import { FAULTS, kbd48 } from './program.js';
import { offerLink } from './share.js';
import { Sheets } from './sheets.js';
import { Waveform } from './waveform.js';

const MARGIN = 400; // cycles of a wave after what is wrong
const MOST_LINES = 400;

export class LessonsPane {
  /** `bench(name, command)` opens a file in the workbench, `processor(name, layout, keys)` in the processor. */
  constructor({ bench, processor }) {
    this.checks = 0;
    fill(byId('path'), PATHS.map(it => it.name), PATHS[0].name);
    byId('path').onchange = () => this.#list();
    this.sheets = new Sheets(() => this.number + 1);
    byId('lesson-print').onclick = () => this.sheets.print([this.number + 1]);
    byId('print-path').onclick = () => this.sheets.print(this.path.lessons);
    byId('print-instructions').onclick = () => this.sheets.printInstructions();
    byId('instructions').lastElementChild.append(...instructionTables());
    byId('lesson-next').onclick = () => {
      this.open(this.next - 1);
      byId('lesson-title').focus();
    };
    byId('lesson-file').oninput = ({ target }) => put(this.name, target.value);
    onFile(({ name }) => {
      if (name === this.name && byId('lesson-file').value !== files[name]) byId('lesson-file').value = files[name];
      this.#canUndo();
    });
    byId('lesson-check').onclick = () => this.check();
    byId('lesson-reset').onclick = () => this.#beginAgain();
    byId('lesson-undo').onclick = () => undo();
    byId('lesson-share').onclick = () => offerLink(byId('lesson-result'), { files: { [this.name]: files[this.name] }, open: this.name, lesson: this.number });
    byId('lesson-bench').onclick = () => bench(this.name, this.command);
    byId('lesson-processor').onclick = () => {
      const [, , layout, keys] = this.command.split(' ');
      processor(this.name, layout, keys);
    };
    this.wave = new Waveform(byId('lesson-wave'), () => ({ edges: [], bytes: [], cycle: 0 }));
    this.handIns = new HandIns();
    this.number = 0;
    this.#list();
    this.open(0);
  }

  get path() { return PATHS.find(it => it.name === byId('path').value); }

  /** The lesson that follows on the path, by its number from 1; or undefined. One that isn't on the path has the first of it next. */
  get next() { return this.path.lessons[this.path.lessons.indexOf(this.number + 1) + 1]; }

  #list() {
    byId('path-says').textContent = this.path.says;
    byId('lesson-list').replaceChildren(...this.path.lessons.map(number => {
      const button = make('button', { type: 'button', textContent: LESSONS[number - 1].title });
      button.dataset.lesson = number;
      button.onclick = () => this.open(number - 1);
      return make('li', { value: number }, button);
    }));
    this.#mark();
  }

  // Which lesson is open, which are done, and whether one follows.
  #mark() {
    for (const button of document.querySelectorAll('#lesson-list button')) {
      const number = Number(button.dataset.lesson);
      button.setAttribute('aria-pressed', String(number === this.number + 1));
      button.classList.toggle('done', keeping.done.has(nameOf(number)));
    }
    byId('lesson-next').hidden = this.next === undefined;
  }

  open(number) {
    this.number = number;
    this.checks++;
    const lesson = this.lesson = LESSONS[number], name = this.name = nameOf(number + 1);
    for (const [other, text] of Object.entries(lesson.extra ?? {})) offer(other, text);
    offer(name, firstText(lesson, originals));
    byId('lesson-title').textContent = `${number + 1}. ${lesson.title}`;
    byId('lesson-text').replaceChildren(...lesson.text.map(text => make('p', { textContent: text })),
      make('p', {}, make('strong', { textContent: `Task. ${lesson.task}` })));
    byId('lesson-hints').replaceChildren(...lesson.hints.map((hint, n) =>
      make('details', {}, make('summary', { textContent: `Hint ${n + 1}` }), make('p', { textContent: hint }))));
    byId('lesson-name').textContent = `${name}: the workbench and the processor have the same file`;
    byId('lesson-file').value = files[name];
    byId('lesson-processor').hidden = !this.command.startsWith('board ');
    tell(byId('lesson-result'), '');
    this.#clear();
    this.#canUndo();
    const [head, body] = byId('lesson-more').children;
    head.textContent = `More on this: ${lesson.section}`;
    body.replaceChildren(...sectionOf(lesson.section));
    byId('lesson-more').open = false;
    this.#mark();
  }

  // The lesson's command, with the names of its file and of its image.
  get command() { return this.lesson.command.replace('IMAGE', this.name.replace(/asm$/, 'hex')).replace('OWN', this.name); }

  async #beginAgain() {
    const first = firstText(this.lesson, originals);
    if (files[this.name] === first) return;
    if (!await ask(`Begin lesson ${this.number + 1} again? Its first file takes the place of yours. Undo brings yours back.`, 'Begin again', 'Keep mine')) return;
    replace(this.name, first, `lesson ${this.number + 1} was begun again`);
    tell(byId('lesson-result'), '');
    this.#clear();
    byId('lesson-file').focus();
  }

  #canUndo() {
    const last = undoable();
    byId('lesson-undo').hidden = last?.name !== this.name;
    byId('lesson-undo').title = last ? `Undo: ${last.why}` : '';
  }

  #clear() {
    byId('lesson-log').textContent = '';
    byId('lesson-differs').hidden = true;
    byId('lesson-wave').hidden = true;
  }

  /** Checks the lesson's file; whoever opens another lesson meanwhile is told nothing. */
  async check() {
    const check = ++this.checks, isLeft = () => check !== this.checks, { lesson, name } = this, text = files[name];
    this.#clear();
    tell(byId('lesson-result'), 'It is checked ..');
    byId('lesson-result').setAttribute('aria-busy', 'true');
    const found = await checked(lesson, text, ({ made, of }) => { byId('lesson-result').textContent = `It is checked: ${made} of ${of} runs ..`; }, isLeft);
    if (isLeft()) return;
    byId('lesson-result').removeAttribute('aria-busy');
    byId('lesson-log').textContent = this.#printed(text);
    if (found) this.#show(found);
    else {
      keeping.lessonDone(name);
      this.#mark();
    }
    tell(byId('lesson-result'), found ? `Not yet: ${saidOf(found, FAULTS)}` : 'Done: in every run it does what it must.', !found);
  }

  // What the lesson's command prints of a text.
  #printed(text) {
    const more = { [this.name]: text }, words = this.command.split(' ').flatMap(word => (word === 'BYTES' ? text.trim().split(/\s+/).filter(Boolean) : [word]));
    if (this.name.endsWith('.asm')) {
      const made = kbd48(['asm', this.name], more);
      if (made.exit !== 0) return made.text;
      more[this.name.replace(/asm$/, 'hex')] = made.text;
    }
    const lines = kbd48(words, more).text.split('\n');
    return [`$ kbd48 ${this.command}`, ...lines.slice(0, MOST_LINES), ...(lines.length > MOST_LINES ? ['..'] : [])].join('\n');
  }

  // The first difference: what was expected beside what came, and the wires, if it is about them.
  #show(found) {
    byId('lesson-differs').hidden = false;
    const upTo = list => list.slice(0, found.line).map(text => `  ${text}`), [expected, got] = firstOf(found);
    byId('lesson-expected').textContent = [...upTo(found.expected), `> ${expected}`].join('\n');
    byId('lesson-got').textContent = [...upTo(found.got), `> ${got}`].join('\n');
    byId('lesson-wave').hidden = !found.trace;
    if (!found.trace) return;
    const { edges, bytes, cycle } = found.trace, end = Math.min(cycle, (found.at ?? cycle) + MARGIN);
    this.wave.show({ edges: edges.filter(it => it.cycle <= end), bytes: bytes.filter(it => it.begin <= end), cycle: end });
  }
}
