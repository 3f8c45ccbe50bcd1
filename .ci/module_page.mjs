// Makes a page with a broken module for .ci/module, on standard output: node module_page.mjs PAGE HOW
// HOW: `changed` turns a character of the program's module. The others put a small module in its place, under its right checksum: one
// that traps, has no memory, is empty, never has room for its text, or ends in a way that kbd48.mjs doesn't know.
import { createHash } from 'node:crypto';
import { readFileSync } from 'node:fs';
import { gzipSync } from 'node:zlib';

const [, , path, how] = process.argv, page = readFileSync(path, 'latin1');
const begin = page.indexOf(' id="program-module">') + ' id="program-module">'.length, end = page.indexOf('<', begin);

const sized = bytes => [bytes.length, ...bytes], name = text => sized([...Buffer.from(text)]);
const section = (number, ...items) => [number, ...sized([items.length, ...items.flat()])];
const I64 = 0x7e, I32 = 0x7f, LOCAL = 0x20, END = 0x0b, CONST_64 = 0x42, CONST_32 = 0x41, UNREACHABLE = 0x00;

/** A module with `memory` of 34 pages, `page_take`, `page_give` and `kbd48_call`, which do this. */
function moduleOf(take, call) {
  const types = section(1, [0x60, ...sized([I64]), ...sized([I64])], [0x60, ...sized([I64]), 0], [0x60, ...sized(Array(9).fill(I64)), ...sized([I32])]);
  const code = body => sized([0, ...body, END]);
  return Buffer.from([0, 0x61, 0x73, 0x6d, 1, 0, 0, 0, ...types, ...section(3, [0], [1], [2]), ...section(5, [0, 34]),
    ...section(7, [...name('memory'), 2, 0], [...name('page_take'), 0, 0], [...name('page_give'), 0, 1], [...name('kbd48_call'), 0, 2]),
    ...section(10, code(take), code([]), code(call))]);
}

const SOME = [CONST_64, 8];
// i64.store8 of 6 at 8 bytes past the pointer `said`, the ninth word of kbd48_call: the exit of a text that found no room.
const SAYS_6 = [LOCAL, 8, 0xa7, CONST_64, 6, 0x3c, 0, 8, CONST_32, 0];
const MADE = {
  trap: () => moduleOf(SOME, [UNREACHABLE]),
  memory: () => moduleOf([CONST_64, 0], [CONST_32, 0]),
  long: () => moduleOf(SOME, SAYS_6),
  status: () => moduleOf(SOME, [CONST_32, 9]),
  empty: () => Buffer.alloc(0),
};

if (how === 'changed') {
  const at = begin + 2000;
  process.stdout.write(page.slice(0, at) + (page[at] === 'A' ? 'B' : 'A') + page.slice(at + 1), 'latin1');
} else {
  const module = MADE[how](), sum = createHash('sha256').update(module).digest('hex');
  const head = page.slice(0, begin).replace(/(kbd48-program-module" content=")[0-9a-f]*/, `$1${sum}`);
  process.stdout.write(head + gzipSync(module).toString('base64') + page.slice(end), 'latin1');
}
