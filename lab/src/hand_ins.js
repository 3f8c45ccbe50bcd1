// Hand-ins: the files of somebody's lessons as one file; and for a teacher a table of many of them, in which each file is checked
// anew. Nothing that a hand-in says of itself is believed.
import { checked } from './checking.js';
import { nameOf, saidOf } from './course/judged.js';
import { byId, make, save, tell } from './dom.js';
import { edited } from './files.js';
import { readWork, workOf } from './keeping.js';
import { LESSONS } from './lessons.js';
import { FAULTS } from './program.js';
import { textOfFile } from './text_files.js';

const lessonNames = () => LESSONS.map((_, n) => nameOf(n + 1));

/** What a lesson's file comes to: a word for the table, and what is wrong with it. */
async function verdict(number, text) {
  if (text === undefined) return { word: '–', why: 'not handed in' };
  const found = await checked(LESSONS[number], text);
  return found ? { word: 'not yet', why: saidOf(found, FAULTS) } : { word: 'done', why: 'in every run it does what it must' };
}

export class HandIns {
  constructor() {
    byId('hand-in-heads').replaceChildren(make('th', { scope: 'col', textContent: 'who' }), ...LESSONS.map((_, n) => make('th', { scope: 'col', textContent: String(n + 1) })));
    byId('hand-in').onclick = () => this.#save(byId('hand-in-name').value.trim());
    byId('hand-ins').onchange = event => this.#open(event.target);
  }

  #save(by) {
    const names = lessonNames().filter(name => edited.has(name));
    if (!by || !names.length) {
      tell(byId('hand-in-told'), by ? 'No lesson\'s file was changed yet.' : 'Write your name first.', false);
      return;
    }
    save(`hand_in_${by.replace(/[^\w-]+/g, '_')}.json`, workOf(names, by));
    tell(byId('hand-in-told'), `It has ${names.join(', ')}.`);
  }

  async #open(input) {
    const taken = [...input.files], rows = byId('hand-in-rows');
    input.value = '';
    byId('hand-in-table').hidden = false;
    for (const [n, file] of taken.entries()) {
      tell(byId('hand-in-told'), `${n + 1} of ${taken.length}: ${file.name} is checked ..`);
      try {
        const { text } = await textOfFile(file), work = readWork(text);
        if (!work) throw new Error(`${file.name} is no hand-in`);
        const verdicts = [];
        for (const [number, name] of lessonNames().entries()) verdicts.push(await verdict(number, work.files[name]));
        rows.append(make('tr', {}, make('th', { scope: 'row', textContent: work.by || file.name }),
          ...verdicts.map(({ word, why }) => make('td', { textContent: word, title: why, className: word === 'done' ? 'right' : '' }))));
      } catch (error) {
        rows.append(make('tr', {}, make('th', { scope: 'row', textContent: file.name }), make('td', { colSpan: LESSONS.length, className: 'wrong', textContent: error.message })));
      }
    }
    tell(byId('hand-in-told'), `${taken.length} checked.`);
  }
}
