// Runs the worked rows and the stored examples over the proved module in lab/lab.html, in Node, without Python.
//
//   node tests/run.mjs [GROUP ..]          a GROUP is a file of tests/rows without its ending, or `examples`; without one, all are run
//   node tests/run.mjs --list [GROUP ..]   prints the calls and runs none
//
// The calls go to as many threads as there are processors. Each must end with its row's exit status and print exactly its bytes, in
// a minute. A line is printed for each call that fails. The last line is `N passed, N failed`; the status is 1 if a call failed,
// or if nothing was run. tests/run does the same over a native program.
import { readFileSync, readdirSync } from 'node:fs';
import os from 'node:os';
import { dirname } from 'node:path';
import { fileURLToPath, pathToFileURL } from 'node:url';
import { Worker } from 'node:worker_threads';
import { programOf } from '../launcher/module_page.mjs';
import { examplesOf } from './module_calls.mjs';
import { readRows } from './row_files.mjs';

const TOP = dirname(dirname(fileURLToPath(import.meta.url)));
const SECONDS = 60;

/** All cases of these groups, each with its calls as they are listed. */
export function casesOf(top, groups) {
  const rows = readdirSync(`${top}/tests/rows`).filter(name => name.endsWith('.rows')).map(name => name.slice(0, -'.rows'.length)).sort();
  const known = [...rows, 'examples'];
  const unknown = groups.find(group => !known.includes(group));
  if (unknown !== undefined) throw new RangeError(`there is no group ${unknown}; the groups are ${known.join(' ')}`);
  return (groups.length > 0 ? groups : known).flatMap(group => {
    if (group === 'examples') {
      return examplesOf(readFileSync(`${top}/examples/commands`, 'utf8')).map((it, at) => ({ group, at, calls: [`examples: kbd48 ${it.title}`] }));
    }
    return readRows(`${top}/tests/rows/${group}.rows`, group).map(({ title, calls, isLarge }, at) => (
      { group, at, isLarge, calls: calls.map(words => `${group}: ${title}: kbd48 ${words.join(' ')}`) }));
  });
}

/** Runs cases side by side over a compiled module, and hands what is wrong with each to `heard`. */
export class Threads {
  constructor(top, module, seconds = SECONDS) {
    Object.assign(this, { top, module, seconds });
  }

  // The answers of one thread to one case; a thread that doesn't answer in time, or breaks down, is ended.
  #answers(thread, { group, at, calls }) {
    return new Promise(resolve => {
      const ended = why => {
        clearTimeout(timer);
        thread.removeAllListeners();
        thread.terminate();
        resolve({ wrong: calls.map(() => why), isOver: true });
      };
      const timer = setTimeout(() => ended(`hasn't ended after ${this.seconds} s`), 1000 * this.seconds * calls.length);
      thread.removeAllListeners();
      thread.on('message', wrong => {
        clearTimeout(timer);
        resolve({ wrong, isOver: false });
      });
      thread.on('error', error => ended(`gave no answer: ${error.message}`));
      thread.postMessage({ group, at });
    });
  }

  async #lane(left, heard) {
    let thread;
    for (let one; (one = left.shift()) !== undefined;) {
      thread ??= new Worker(new URL('run_worker.mjs', import.meta.url), { workerData: { top: this.top, module: this.module } });
      const { wrong, isOver } = await this.#answers(thread, one);
      heard(one, wrong);
      if (isOver) thread = undefined;
    }
    await thread?.terminate();
  }

  /** Those that take long go first. */
  async run(cases, heard) {
    const left = [...cases].sort((one, other) => Number(other.isLarge ?? false) - Number(one.isLarge ?? false));
    const lanes = Math.min(left.length, os.availableParallelism?.() ?? os.cpus().length);
    await Promise.all(Array.from({ length: lanes }, () => this.#lane(left, heard)));
  }
}

async function main(words) {
  if (words.length === 1 && ['-h', '--help'].includes(words[0])) {
    const head = readFileSync(fileURLToPath(import.meta.url), 'utf8').split(/^import/m)[0];
    process.stdout.write(head.replace(/^\/\/ ?/gm, ''));
    return 0;
  }
  const isList = words[0] === '--list', cases = casesOf(TOP, isList ? words.slice(1) : words);
  if (isList) {
    process.stdout.write(cases.flatMap(it => it.calls).map(it => `${it}\n`).join(''));
    return 0;
  }
  let passed = 0, failed = 0;
  await new Threads(TOP, new WebAssembly.Module(programOf(`${TOP}/lab/lab.html`))).run(cases, (one, wrong) => one.calls.forEach((call, at) => {
    if (wrong[at] === undefined) {
      passed++;
    } else {
      failed++;
      console.log(`${call} ${wrong[at]}`);
    }
  }));
  console.log(`${passed} passed, ${failed} failed`);
  return failed > 0 || passed === 0 ? 1 : 0;
}

if (process.argv[1] !== undefined && import.meta.url === pathToFileURL(process.argv[1]).href) {
  try {
    process.exitCode = await main(process.argv.slice(2));
  } catch (error) {
    console.error(`tests/run.mjs: ${error.message}`);
    process.exitCode = 1;
  }
}
