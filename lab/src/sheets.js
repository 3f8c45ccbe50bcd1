// Printed sheets: a lesson's text and task, the main part of its file, and lines to write on. They are made for the printer, and
// are gone after it.
import { firstText, nameOf } from './course/judged.js';
import { byId, make } from './dom.js';
import { originals } from './files.js';
import { LESSONS } from './lessons.js';
import { instructionTables } from './manual.js';

const EMPTY_LINES = 12, SUBROUTINE = /\n; send: [^]*?\n {8}RET\n/;

function sheetOf(number) {
  const lesson = LESSONS[number - 1], text = firstText(lesson, originals).replace(SUBROUTINE, '\n; send: as in the exercises before\n');
  return make('article', { className: 'sheet' },
    make('p', { className: 'who', textContent: 'Name ______________________________   Date ________________' }),
    make('h2', { textContent: `${number}. ${lesson.title}` }), ...lesson.text.map(textContent => make('p', { textContent })),
    make('p', {}, make('strong', { textContent: `Task. ${lesson.task}` })),
    make('h3', { textContent: nameOf(number) }), make('pre', { textContent: text }),
    make('h3', { textContent: 'Answer' }), ...Array.from({ length: EMPTY_LINES }, () => make('p', { className: 'line' })));
}

/** `chosen()` is the number of the lesson that is open. */
export class Sheets {
  constructor(chosen) {
    // Whoever prints by the browser's own menu gets the open lesson.
    addEventListener('beforeprint', () => { if (!byId('sheets').hasChildNodes()) this.make([chosen()]); });
    addEventListener('afterprint', () => byId('sheets').replaceChildren());
  }

  make(numbers) { byId('sheets').replaceChildren(...numbers.map(sheetOf)); }

  print(numbers) {
    this.make(numbers);
    globalThis.print();
  }

  printInstructions() {
    byId('sheets').replaceChildren(make('article', { className: 'sheet manual' }, make('h2', { textContent: 'The instructions' }), ...instructionTables()));
    globalThis.print();
  }
}
