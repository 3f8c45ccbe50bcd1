// A thread of tests/run.mjs: it runs the cases that it is sent, over the compiled module, each call of a case in one instance.
import { readFileSync } from 'node:fs';
import { parentPort, workerData } from 'node:worker_threads';
import { Program } from '../lab/kbd48.mjs';
import { examplesOf, wrongCalls, wrongExample } from './module_calls.mjs';
import { readRows } from './row_files.mjs';

const { top, module } = workerData, examples = `${top}/examples`, groups = new Map();

/** The case of a name, { group, at }: a row's, or one of the examples. */
function caseOf({ group, at }) {
  if (!groups.has(group)) {
    groups.set(group, group === 'examples' ? examplesOf(readFileSync(`${examples}/commands`, 'utf8')) : readRows(`${top}/tests/rows/${group}.rows`, group));
  }
  return groups.get(group)[at];
}

parentPort.on('message', async name => {
  const one = caseOf(name);
  try {
    const program = await Program.load(module);
    parentPort.postMessage(name.group === 'examples' ? [wrongExample(program, one, examples)] : wrongCalls(program, one, top));
  } catch (error) {
    parentPort.postMessage(Array.from(one.calls ?? [one], () => `gave no answer: ${error.message}`));
  }
});
