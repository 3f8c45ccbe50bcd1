// The program's answers, from a worker if the run is long.
import { byId } from './dom.js';
import { captureOf } from './captures/capture.js';
import { PackedEdges } from './captures/packed_edges.js';
import { files } from './files.js';
import { kbd48, say } from './program.js';
import { EXIT } from './refusals.js';
import { CYCLES_OF_A_MS } from './times.js';
import { readTrace } from './vcd.js';

const END_OF_WORKER = '/* The end of what a worker runs. */';
const LONG_RUN = 20_000; // ms
const LONG_CAPTURE = 1 << 18; // bytes

/** The last time of a key file, in ms. */
function endOf(keys) {
  const found = /^\s*(\d+)(ms)?\s+end\b/m.exec(keys.slice(-200));
  return found ? Number(found[1]) / (found[2] ? 1 : CYCLES_OF_A_MS) : 0;
}

const isLong = (words, all) => words.slice(1).some(word => word.endsWith('.keys') && word in all && endOf(all[word]) > LONG_RUN);

const answerOf = (exit, text, traced = null) => ({ exit, text, bytes: { length: new Blob([text]).size }, traced });

class Runs {
  /** `module` has the bytes of the program's module; `serves` is the name of the function that answers in a worker. */
  begin(module, serves) { Object.assign(this, { module, serves, worker: null, stop: null, isBarred: false, waiting: new Map(), last: 0 }); }

  // The worker, or null if the browser makes none for this page.
  #start() {
    if (this.worker || this.isBarred) return this.worker;
    const script = [...document.scripts].map(it => it.textContent).find(text => text.includes(END_OF_WORKER)), end = script.indexOf(END_OF_WORKER);
    const url = URL.createObjectURL(new Blob([script.slice(0, end), `${this.serves}(self);`], { type: 'text/javascript' }));
    try {
      this.worker = new Worker(url);
      this.worker.postMessage(this.module);
      this.#listen(this.worker);
    } catch {
      this.worker = null;
    }
    return this.worker;
  }

  /** What the program answers: { exit, text, bytes, traced }, at once or later; or undefined if somebody stopped the run. A long run
      that the browser has no room for has `failed`, which says so. */
  run(words, more = {}) {
    const all = { ...files, ...more };
    if (!isLong(words, all) || !this.#start()) return this.#now(words, more);
    const needed = Object.fromEntries(words.slice(1).filter(word => Object.hasOwn(all, word)).map(word => [word, all[word]]));
    return this.#later({ words, files: needed }, () => this.#now(words, more), ({ exit, text, traced }) =>
      answerOf(exit, text, traced && { ...traced, edges: new PackedEdges(traced) }));
  }

  /** What is in a capture { file, name, chosen }, as `captureOf` answers it; or { failed }, or undefined if somebody stopped it. A large
      one is read in the worker. */
  async capture(asked) {
    const here = async () => captureOf({ run: say }, { ...asked, bytes: new Uint8Array(await asked.file.arrayBuffer()) });
    return asked.file.size > LONG_CAPTURE && this.#start() ? this.#later({ capture: asked }, here, ({ captured }) => captured) : here();
  }

  #now(words, more) {
    const { exit, text, bytes } = kbd48(words, more);
    return { exit, text, bytes, traced: exit === 0 && text.startsWith('$timescale') ? readTrace(text) : null };
  }

  // Hands each answer to the call that it is of. `waiting` has the calls without an answer, by their numbers.
  #listen(worker) {
    worker.onmessage = ({ data }) => this.#end(data.number, ({ read }) => (data.failed ? { ...answerOf(EXIT.MEMORY, ''), failed: data.failed } : read(data)));
    // A browser may let this page have no worker: then the runs are made at once.
    worker.onerror = event => {
      event.preventDefault();
      this.isBarred = true;
      this.worker = null;
      this.#endAll(({ here }) => here());
    };
  }

  #end(number, answerTo) {
    const call = this.waiting.get(number);
    this.waiting.delete(number);
    if (!this.waiting.size) {
      byId('runs').hidden = true;
      this.stop = null;
    }
    call.answered(answerTo(call));
  }

  #endAll(answerTo) { for (const number of [...this.waiting.keys()]) this.#end(number, answerTo); }

  // `here` makes the call in the page, if there is no worker after all; `read` makes the answer of what the worker posts.
  #later(call, here, read) {
    const number = ++this.last;
    byId('runs').hidden = false;
    this.stop = () => {
      this.worker.terminate();
      this.worker = null;
      this.#endAll(() => undefined);
    };
    return new Promise(answered => {
      this.waiting.set(number, { here, read, answered });
      this.worker.postMessage({ number, ...call });
    });
  }
}

export const runs = new Runs();
