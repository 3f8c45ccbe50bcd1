// Calls of the program for tests/run.mjs, over files in memory, and what is wrong with them. `program` has a method run(words, files),
// as the class Program of lab/kbd48.mjs. Words and bytes are strings with a character from 0 to 255 for each byte.
import { readFileSync } from 'node:fs';
import { shown, textOf, unescaped } from './row_files.mjs';

/** The words as texts; or none, if one of them is no UTF-8 text, as the program takes them then. */
function textsOf(words) {
  const coder = new TextDecoder('utf-8', { fatal: true, ignoreBOM: true });
  try {
    return words.map(word => coder.decode(Buffer.from(word, 'latin1')));
  } catch {
    return [];
  }
}

/** What a call comes to: its status and its bytes. */
function called(program, words, files) {
  const { exit, bytes } = program.run(textsOf(words), files);
  return [exit, Buffer.from(bytes).toString('latin1')];
}

const wordOf = word => word === '""' ? '' : unescaped(word);

// The bytes of a part of a file. What the program makes of the files before it must be an answer.
function bytesOf(program, { lines, times, path, words }, files, top) {
  if (path) return readFileSync(`${top}/${path}`);
  if (lines) return Buffer.from(textOf(lines).repeat(times), 'latin1');
  const [status, text] = called(program, words.map(wordOf), files);
  if (status !== 0) throw new RangeError(`has no files: kbd48 ${words.join(' ')} ended with ${status} and printed ${shown(text)}`);
  return Buffer.from(text, 'latin1');
}

/** The files of a case; those that the program makes of others come last. */
function filesOf(program, { files }, top) {
  const made = {}, needsOthers = pieces => pieces.some(piece => piece.words !== undefined);
  const entries = Object.entries(files);
  for (const [name, pieces] of [...entries.filter(it => !needsOthers(it[1])), ...entries.filter(it => needsOthers(it[1]))]) {
    made[name] = Buffer.concat(pieces.map(piece => bytesOf(program, piece, made, top)));
  }
  return made;
}

/** What is wrong with each call of a case of a row: nothing, or a text. */
export function wrongCalls(program, row, top) {
  let files, first;
  try {
    files = filesOf(program, row, top);
  } catch (error) {
    if (error instanceof RangeError) return row.calls.map(() => error.message);
    throw error;
  }
  return row.calls.map(words => {
    const [status, text] = called(program, words.map(wordOf), files);
    const wrong = row.expected.difference(status, text);
    if (wrong === undefined && first !== undefined && text !== first) return `printed ${shown(text)}, and its row's first call ${shown(first)}`;
    first ??= text;
    return wrong;
  });
}

/** The examples of a file of commands: a status, the name of the expected text, and words, in which \0 and up to three octal
    digits are a byte. */
export function examplesOf(text) {
  const octal = word => Buffer.from(word).toString('latin1').replace(/\\0([0-7]{1,3})/g, (_, digits) => String.fromCharCode(parseInt(digits, 8) & 0xff));
  return text.split('\n').filter(line => line !== '' && !line.startsWith('#')).map(line => {
    const [status, expected, ...words] = line.split(/ +/);
    return { status: Number(status), expected, title: words.join(' '), words: words.map(octal) };
  });
}

/** What is wrong with an example: nothing, or a text. Its files are in a folder. */
export function wrongExample(program, { status, expected, words }, folder) {
  const files = {};
  for (const word of words.slice(1)) {
    try {
      files[word] = readFileSync(`${folder}/${word}`);
    } catch { /* It is no file, or one that isn't there. */ }
  }
  const [ended, text] = called(program, words, files);
  const isRight = ended === status && text === readFileSync(`${folder}/${expected}`).toString('latin1');
  return isRight ? undefined : `ended with ${ended} and printed ${shown(text)}`;
}
