// The files of the page: the examples at first, then what the user makes of them. There is one copy of each, which every pane
// changes. What the user has made is kept (`keeping.js`), and a text that another one replaces as a whole can be brought back.
import { byId } from './dom.js';

const changed = new EventTarget();
const MOST_UNDONE = 50;

/** The names of the files that were put here by the user, now or on an earlier visit. */
export const edited = new Set();

// Without a prototype: a file may have any name.
const withoutPrototype = entries => Object.assign(Object.create(null), entries);

/** The examples as the page has them. */
export const originals = withoutPrototype(JSON.parse(byId('files').textContent));

export const files = withoutPrototype(originals);

const replacedTexts = [];

const announce = detail => changed.dispatchEvent(new CustomEvent('file', { detail }));

/** Puts a file; everybody who lists files is told. */
export function put(name, text) {
  const isNew = !(name in files);
  files[name] = text;
  edited.add(name);
  announce({ name, isNew });
}

/** Puts a file that isn't there yet, which the user didn't make. */
export function offer(name, text) {
  if (name in files) return;
  files[name] = text;
  announce({ name, isNew: true });
}

/** Puts a file in place of another text as a whole; `undo` brings that back. `why` says what was done. */
export function replace(name, text, why) {
  if (files[name] !== undefined && files[name] !== text) {
    replacedTexts.push({ name, text: files[name], why });
    if (replacedTexts.length > MOST_UNDONE) replacedTexts.shift();
  }
  put(name, text);
}

/** What `undo` would bring back: { name, why }, or undefined. */
export const undoable = () => replacedTexts.at(-1);

/** Brings back the last text that was replaced as a whole; its name. */
export function undo() {
  const { name, text } = replacedTexts.pop();
  put(name, text);
  return name;
}

/** The names of the files with these endings. */
export const named = (...endings) => Object.keys(files).filter(name => endings.some(ending => name.endsWith(ending))).sort();

export const onFile = call => changed.addEventListener('file', event => call(event.detail));
