#!/usr/bin/env node
// The proved program: kbd48 WORDS. Output and status are the program's. Status 1 is never the program's: there was no answer, and
// standard error says why. A file named - is the standard input.
import { readFileSync } from 'node:fs';
import { loadProgram } from './index.mjs';
import { answerOver, written } from './module_files.mjs';

// The program's exit if its output fails; over memory, its text is too long.
const WRITE = 6;

const filesOf = JSON.parse(readFileSync(new URL('files.json', import.meta.url), 'utf8'));

async function answered(words) {
  const count = filesOf[words.slice(0, 2).join(' ')] ?? filesOf[words[0]] ?? 0;
  const named = words.map((word, at) => word === '-' && at >= 1 && at <= count ? '/dev/stdin' : word);
  const { exit, bytes } = answerOver(await loadProgram(), named, count, true);
  if (exit === WRITE) throw new Error('the text is longer than the module has room for');
  return bytes.length === 0 || written(bytes) ? exit : WRITE;
}

try {
  process.exitCode = await answered(process.argv.slice(2));
} catch (error) {
  process.exitCode = 1;
  console.error(`kbd48: NO ANSWER: ${error.message}`);
}
