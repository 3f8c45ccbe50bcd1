// The script examples/from_kle in Node: the rules of lab/src/boards over files. Its words are the script's.
import { readFileSync } from 'node:fs';
import './tables.mjs';
import { fromKle } from '../../lab/src/boards/from_kle.js';
import { textOfBytes } from '../../lab/src/boards/file_kinds.js';
import { Refused } from '../../lab/src/boards/refused.js';

const NO_ANSWER = 1, STANDARD_INPUT = 0, OLDEST_NODE = 18;
const UNREADABLE = { ENOENT: 'there is no such file', EISDIR: 'it is a folder', EACCES: "it can't be read: permission is denied" };

/** The text of a file, or of the standard input for `-`. */
function textOf(name) {
  let bytes;
  try {
    bytes = readFileSync(name === '-' ? STANDARD_INPUT : name);
  } catch (error) {
    throw new Refused(UNREADABLE[error.code] ?? `it can't be read: ${error.code}`);
  }
  return textOfBytes(bytes, name);
}

if (Number.parseInt(process.versions.node, 10) < OLDEST_NODE) {
  process.stderr.write(`from_kle: it needs Node ${OLDEST_NODE} or later, and this is ${process.versions.node}; in a browser, lab/lab.html opens the same files\n`);
  process.exit(NO_ANSWER);
}
// Who reads may go before the end; then so does the script, without a word.
process.stdout.on('error', ({ code }) => {
  if (code !== 'EPIPE') process.stderr.write(`from_kle: the text can't be written: ${code}\n`);
  process.exit(NO_ANSWER);
});
const { status, text, told } = fromKle(process.argv.slice(2), textOf);
process.exitCode = status;
process.stderr.write(told.map(line => `from_kle: ${line}\n`).join(''));
process.stdout.write(text);
