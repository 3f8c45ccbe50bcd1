// Answers one call by the proved program in the page: node module.mjs PAGE FILES CLOSED WORDS ..
// FILES is how many of the words after the first name files. CLOSED is `none`, or names what is closed of `in` and `out`.
// launcher/module.sh calls it, after it has compared the page with the sources.
//
// The status is 100 more than the program's, or 90 if the module can't be used, or 91 if it gave no answer; the reason of
// both is on standard error.
import { readFileSync, writeSync } from 'node:fs';
import { setFlagsFromString } from 'node:v8';
import { answerOver, written } from './module_files.mjs';
import { PageFault, programOf } from './module_page.mjs';

const ANSWERED = 100, UNUSABLE = 90, NO_ANSWER = 91;
// The program's exit if its output fails; over memory, its output is full.
const WRITE = 6;
const NODE = 18;

class Ended extends Error {
  constructor(status, reason) {
    super(reason);
    this.status = status;
  }
}

function say(line) {
  try {
    writeSync(2, line);
  } catch { /* Standard error is closed. */ }
}

/** The words of this call, or none if one of them is no UTF-8 text, as the program takes them then. */
function wordsOf(words) {
  if (!words.some(word => word.includes('\uFFFD'))) return words;
  // Node puts that character in place of bytes that are none; Linux has the bytes.
  let line;
  try {
    line = readFileSync('/proc/self/cmdline');
  } catch {
    return words;
  }
  const raw = line.toString('latin1').split('\0').slice(0, -1).slice(-words.length).map(word => Buffer.from(word, 'latin1'));
  return raw.every((word, at) => word.equals(Buffer.from(words[at]))) ? words : [];
}

// A short run ends before V8's second compiler has made up for its own time. Later versions than these begin it later by
// themselves.
async function compiled(bytes) {
  if (parseInt(process.versions.v8, 10) < 12) setFlagsFromString('--wasm-tiering-budget=20000000');
  const { Program } = await import('../lab/kbd48.mjs');
  try {
    return await Program.load(bytes);
  } catch (error) {
    throw new Ended(UNUSABLE, `Node ${process.version} can't run the module: ${error.message}`);
  }
}

async function answered([page, count, closed, ...words]) {
  if (parseInt(process.versions.node, 10) < NODE) {
    throw new Ended(UNUSABLE, `${process.execPath} is too old: Node ${NODE} or later runs the module in lab/lab.html`);
  }
  const program = await compiled(programOf(page));
  const answer = answerOver(program, wordsOf(words), Number(count), !closed.includes('in'));
  if (answer.exit === WRITE) throw new Ended(NO_ANSWER, 'the text has more than 256 MiB, for which the module has no room');
  const taken = answer.bytes.length === 0 || !closed.includes('out') && written(answer.bytes);
  return taken ? answer.exit : WRITE;
}

try {
  process.exitCode = ANSWERED + await answered(process.argv.slice(2));
} catch (error) {
  const ofPage = error instanceof PageFault;
  process.exitCode = ofPage ? UNUSABLE : error instanceof Ended ? error.status : NO_ANSWER;
  say(`kbd48: ${process.exitCode === NO_ANSWER ? 'NO ANSWER: ' : ''}${ofPage ? `${process.argv[2]} ` : ''}${error.message}\n`);
}
