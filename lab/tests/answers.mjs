// Reads boards as JSON, words and files, and prints each with what lab/src/boards answers in Node: the status, the text and the remarks.
import { readFileSync } from 'node:fs';
import '../../examples/kle/tables.mjs';
import { fromKle } from '../src/boards/from_kle.js';
import { Refused } from '../src/boards/refused.js';

const answers = JSON.parse(readFileSync(0, 'utf8')).map(({ words, files }) => {
  const { status, text, told } = fromKle(words, name => {
    if (Object.hasOwn(files, name)) return files[name];
    throw new Refused('there is no such file');
  });
  return { words, files, status, text, told };
});
process.stdout.write(JSON.stringify(answers));
