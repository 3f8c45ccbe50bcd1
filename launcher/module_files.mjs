// The files of a call, as the program fetches them: in the order of the words, each judged before the next is opened. And the
// standard output.
import { closeSync, fstatSync, openSync, readSync, statSync, writeSync } from 'node:fs';

// One byte past the longest file's limit, of those that aren't dumps: the program reads no more of any. Of a dump it reads all,
// and the module has room for so many bytes.
const MOST = 4_194_305, MOST_OF_A_DUMP = 1 << 28, PIECE = 1 << 16;
const CLOSED_INPUT = ['/dev/stdin', '/dev/fd/0', '/proc/self/fd/0'];
// The program's exit if a file can't be read.
const READ = 5;

// What can be read of an open file, up to the limit.
function contentOf(file, most) {
  let bytes = Buffer.allocUnsafe(Math.min(most, fstatSync(file).size + PIECE)), have = 0;
  for (;;) {
    const count = readSync(file, bytes, have, bytes.length - have, null);
    have += count;
    if (count === 0 || have === most) return bytes.subarray(0, have);
    if (have === bytes.length) bytes = Buffer.concat([bytes], Math.min(most, 2 * have));
  }
}

/** The bytes of a file, or nothing if it can't be opened and read. */
function bytesOf(name, most) {
  let file;
  try {
    file = openSync(name);
    return contentOf(file, most);
  } catch {
    return undefined;
  } finally {
    if (file !== undefined) closeSync(file);
  }
}

function isRegular(name) {
  try {
    return statSync(name).isFile();
  } catch {
    return false;
  }
}

/** Writes it all to the standard output, or returns false if that takes no more. */
export function written(bytes) {
  for (let at = 0; at < bytes.length;) {
    try {
      at += writeSync(1, bytes, at);
    } catch {
      return false;
    }
  }
  return true;
}

/** What the program answers to these words, of which so many after the first name files. To the program, files have names
    of ours. Before a file is opened that can perhaps be read only once, such as a pipe, the earlier files are judged. */
export function answerOver(program, words, count, hasInput) {
  const files = {}, isName = word => word !== '' && !word.startsWith('-');
  const isDump = words[0] === 'capture', most = isDump ? MOST_OF_A_DUMP : MOST;
  const given = words.map((word, at) => at >= 1 && at <= count && isName(word) ? `file${at}` : word);
  for (let at = 1; at < words.length && at <= count; at++) {
    if (given[at] === words[at]) continue;
    if (!isRegular(words[at])) {
      const said = program.run(given, files);
      if (said.exit !== READ) return said;
    }
    const bytes = !hasInput && CLOSED_INPUT.includes(words[at]) ? undefined : bytesOf(words[at], most);
    if (bytes === undefined) break;
    if (isDump && bytes.length === most) throw new Error('the dump has 256 MiB or more, for which the module has no room');
    files[given[at]] = bytes;
  }
  return program.run(given, files);
}
