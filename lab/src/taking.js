// Files that come from outside: opened, dropped on the page, or carried by a link. None takes the place of what the user has
// made without a question.
import { ask } from './asking.js';
import { tell } from './dom.js';
import { edited, files, put, replace } from './files.js';
import { isFileName, readWork } from './keeping.js';
import { textOfFile } from './text_files.js';

const NAMED = 3;

/** Puts these files, { name: text }; `from` says where they come from. Those that the user has changed stay if they say so.
    It answers the names of those that were put. */
export async function bring(entries, from) {
  const all = Object.entries(entries), mine = all.filter(([name, text]) => edited.has(name) && files[name] !== text).map(([name]) => name);
  const named = mine.length > NAMED ? `${mine.length} files` : mine.join(', ');
  const isYes = !mine.length || await ask(`${from} has ${named} too, which you have changed. Shall it take the place of yours? Undo brings yours back.`, 'Take it', 'Keep mine');
  const taken = all.filter(([name]) => isYes || !mine.includes(name));
  for (const [name, text] of taken) replace(name, text, `${from} brought ${name}`);
  return taken.map(([name]) => name);
}

// The texts that the page itself made of other files, by their names.
const made = new Map();
const isMade = name => made.get(name) === files[name];

/** Keeps a text that the page made of other files; `from` says what it was. What the user has made in its place stays if they say
    so. Whether it was kept. */
export async function keepMade(name, text, from) {
  if (isMade(name)) put(name, text);
  else if (!(await bring({ [name]: text }, from)).includes(name)) return false;
  made.set(name, text);
  return true;
}

/** Puts a text that the page made of another file, without a question: what the user has made in its place can be brought back. */
export function putMade(name, text, source) {
  if (isMade(name) || !edited.has(name)) put(name, text);
  else replace(name, text, `${name} was made of ${source}`);
  made.set(name, text);
}

/** Takes files of the user's system, also files that have many; what can't be taken is said in `told`. The names of all. */
export async function takeFiles(list, told) {
  const names = [];
  for (const file of list) {
    try {
      const { name, text } = await textOfFile(file), work = name.endsWith('.json') ? readWork(text) : null;
      if (!work && !isFileName(name)) throw new Error(`${name} is no name that a command can say`);
      names.push(...await bring(work ? work.files : { [name]: text }, file.name));
    } catch (error) {
      tell(told, error.message, false);
    }
  }
  return names;
}

/** Files that are dropped anywhere on the page are taken, and the page stays. `taken(names, target)` hears of them. */
export function listenToDrops(taken) {
  const isOfFiles = event => [...event.dataTransfer?.types ?? []].includes('Files');
  addEventListener('dragover', event => { if (isOfFiles(event)) event.preventDefault(); });
  addEventListener('drop', event => {
    if (!isOfFiles(event)) return;
    event.preventDefault();
    taken([...event.dataTransfer.files], event.target);
  });
}
