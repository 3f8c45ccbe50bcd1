// What the user has made is kept in the browser's storage, file by file, and comes back when the page is opened again. Where a
// browser keeps nothing, the page says so, and asks before it is left.
import { byId } from './dom.js';
import { edited, files, onFile, put } from './files.js';

const FILE = 'kbd48 lab/file/', DONE_ONES = 'kbd48 lab/lessons'; // keys of the storage
const KEPT_AFTER = 300; // ms

/** All that is kept, as one file, begins with this. */
const MARK = 'kbd48_lab', VERSION = 1;

const isText = value => typeof value === 'string';

function askToStay(event) { if (edited.size) event.preventDefault(); }

class Keeping {
  constructor() {
    Object.assign(this, { waiting: new Set(), timer: null, done: new Set(), isApart: false });
  }

  // The browser's storage, or null: some browsers have none for a local file, or refuse it.
  get #storage() {
    try {
      return globalThis.localStorage ?? null;
    } catch {
      return null;
    }
  }

  /** Brings back what was kept; how many files. */
  begin() {
    const storage = this.#storage;
    let many = 0;
    try {
      if (!storage) throw new Error('this browser has no storage for this page');
      for (let n = 0; n < storage.length; n++) {
        const key = storage.key(n);
        if (!key.startsWith(FILE)) continue;
        put(key.slice(FILE.length), storage.getItem(key));
        many++;
      }
      this.done = new Set(JSON.parse(storage.getItem(DONE_ONES) ?? '[]'));
    } catch (error) {
      this.#failed(error);
    }
    onFile(({ name }) => { if (edited.has(name)) this.#later(name); });
    addEventListener('pagehide', () => this.flush());
    document.addEventListener('visibilitychange', () => { if (document.hidden) this.flush(); });
    // Another window with this page has changed a file.
    addEventListener('storage', ({ key, newValue }) => {
      if (!key?.startsWith(FILE) || newValue === null) return;
      this.isApart = true;
      put(key.slice(FILE.length), newValue);
      this.isApart = false;
    });
    return many;
  }

  #later(name) {
    if (this.isApart) return;
    this.waiting.add(name);
    this.timer ??= setTimeout(() => this.flush(), KEPT_AFTER);
  }

  /** Keeps what waits to be kept. */
  flush() {
    clearTimeout(this.timer);
    this.timer = null;
    if (!this.waiting.size) return;
    try {
      for (const name of this.waiting) this.#storage.setItem(FILE + name, files[name]);
      this.waiting.clear();
      removeEventListener('beforeunload', askToStay);
      byId('kept').hidden = true;
    } catch (error) {
      this.#failed(error);
    }
  }

  #failed(error) {
    // Only a page that keeps nothing asks before it is left.
    addEventListener('beforeunload', askToStay);
    byId('kept').textContent = `Your files aren't kept (${error.message}). Save all in the workbench before you leave this page.`;
    byId('kept').hidden = false;
  }

  /** A lesson is done. */
  lessonDone(name) {
    this.done.add(name);
    try {
      this.#storage.setItem(DONE_ONES, JSON.stringify([...this.done]));
    } catch (error) {
      this.#failed(error);
    }
  }

  /** Forgets all that is kept; the page as it was made comes back when it is opened again. */
  forget() {
    this.waiting.clear();
    edited.clear();
    const storage = this.#storage, keys = storage ? Array.from({ length: storage.length }, (_, n) => storage.key(n)) : [];
    for (const key of keys) if (key.startsWith(FILE) || key === DONE_ONES) storage.removeItem(key);
  }
}

export const keeping = new Keeping();

/** Files as one text, with who made them. */
export const workOf = (names, by = '') => `${JSON.stringify({ [MARK]: VERSION, by, files: Object.fromEntries(names.map(name => [name, files[name]])) }, null, 1)}\n`;

/** The files of such a text: { by, files }; or null if it is another text. */
export function readWork(text) {
  if (!text.slice(0, 200).includes(`"${MARK}"`)) return null;
  try {
    const work = JSON.parse(text);
    if (work[MARK] === VERSION && Object.entries(work.files).every(([name, file]) => isFileName(name) && isText(file))) return { by: String(work.by ?? ''), files: work.files };
  } catch {
    // Below it is said.
  }
  return null;
}

/** Whether any command can say this name. */
export const isFileName = name => /^[A-Za-z0-9_][\w.-]{0,99}$/.test(name);
