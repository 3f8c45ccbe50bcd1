// usage: node firmware.mjs LAB.html: what the page puts on the boards of firmware/ is what firmware/make makes, byte for byte: of
// layouts and of programs, for each board. What doesn't fit is refused in the same words.
import assert from 'node:assert/strict';
import { spawnSync } from 'node:child_process';
import { mkdtempSync, readFileSync, readdirSync, rmSync, writeFileSync } from 'node:fs';
import { tmpdir } from 'node:os';
import { basename, join } from 'node:path';
import { gunzipSync } from 'node:zlib';
import { Program } from '../kbd48.mjs';
import { fileForBoard, judgeColumns } from '../src/firmware/for_board.js';

const html = readFileSync(process.argv[2], 'utf8'), inPage = id => new RegExp(`id="${id}">(.*?)</script>`, 's').exec(html)[1];
const program = await Program.load(gunzipSync(Buffer.from(inPage('program-module'), 'base64')));
const boards = JSON.parse(inPage('chips'));
const top = new URL('../../', import.meta.url).pathname, work = mkdtempSync(join(tmpdir(), 'kbd48-boards-'));
const LAYOUTS = ['us84.toml', 'sixty_fn.toml', 'rows_of_twelve.toml', 'boards/sixty_via.toml'], PROGRAMS = ['board_test.hex', 'delay.hex'];
const FAULT = 1, COLUMN_OF_FIRST_KEY = 'column = 0';

const make = (...words) => spawnSync('python3', [join(top, 'firmware/make'), '--to', work, ...words], { encoding: 'utf8' });

/** The page's file of a board. */
function fileOf(path, board) {
  const source = basename(path), text = readFileSync(path, 'utf8'), isKernel = !path.endsWith('.hex');
  if (isKernel) judgeColumns(source, text, board, boards[board]);
  const hexText = isKernel ? program.run(['compile', source], { [source]: text }).text : text;
  return fileForBoard(boards[board], { hexText, isKernel, source });
}

function sameFile(path, board) {
  const done = make(path, board), file = fileOf(path, board);
  assert.equal(done.status, 0, done.stderr);
  assert.ok(Buffer.compare(readFileSync(join(work, file.name)), Buffer.from(file.content)) === 0, `${path} for ${board}: ${file.name} is another one`);
}

/** A layout with a column that has no pin. */
function refused(board) {
  const path = join(work, 'wide.toml'), text = readFileSync(join(top, 'examples/us84.toml'), 'utf8');
  assert.ok(text.includes(COLUMN_OF_FIRST_KEY));
  writeFileSync(path, text.replace(COLUMN_OF_FIRST_KEY, 'column = 12'));
  const done = make(path, board);
  assert.equal(done.status, FAULT);
  assert.throws(() => fileOf(path, board), ({ message }) => done.stderr.includes(message) && /line \d+: column 12 has no pin/.test(message));
  assert.throws(() => judgeColumns('us84.toml', text, board, { columns: 10 }), { message: /^us84\.toml: line \d+: column 10 has no pin: \w+ has columns 0 to 9$/ });
}

/** A place for the image whose form isn't known here. */
function otherForm(board) {
  const memory = Buffer.from(boards[board].memory, 'base64'), at = memory.indexOf('kbd48img');
  memory[at + 8] = 2;
  const other = { ...boards[board], memory: memory.toString('base64') };
  assert.throws(() => fileForBoard(other, { hexText: ':00000001FF\n', isKernel: false, source: 'x' }), { message: /has form 2; this page knows form 1/ });
}

try {
  const names = readdirSync(join(top, 'firmware/boards')).map(name => name.replace('.txt', ''));
  assert.deepEqual(Object.keys(boards), names.sort());
  for (const board of names) {
    for (const name of [...LAYOUTS, ...PROGRAMS]) sameFile(join(top, 'examples', name), board);
    refused(board);
    otherForm(board);
  }
  // The longest name that fits, and a longer one with a letter of two bytes at the end.
  for (const name of [`${'x'.repeat(90)}.toml`, `${'x'.repeat(93)}ü.toml`]) {
    const path = join(work, name);
    writeFileSync(path, readFileSync(join(top, 'examples/us84.toml')));
    sameFile(path, 'pico');
  }
  console.log(`the files of ${names.length} boards: ${LAYOUTS.length} layouts, ${PROGRAMS.length} programs and 2 long names as firmware/make makes them; refusals`);
} finally {
  rmSync(work, { recursive: true, force: true });
}
