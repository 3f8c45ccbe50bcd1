// Tests tests/run.mjs itself, as runner_test tests the runner in Python: what a row can say, that each deviation from a row is a
// failure, and that a line without a meaning is refused. A small function answers in place of the program. Then threads run over the
// page's module, under a limit of time and with rows that are wrong. It takes a second or two: node tests/runner_test.mjs
import assert from 'node:assert/strict';
import { mkdirSync, mkdtempSync, readFileSync, rmSync, writeFileSync } from 'node:fs';
import { tmpdir } from 'node:os';
import { programOf } from '../launcher/module_page.mjs';
import { examplesOf, wrongCalls, wrongExample } from './module_calls.mjs';
import { RowFault, readRows } from './row_files.mjs';
import { Threads, casesOf } from './run.mjs';

const TOP = new URL('..', import.meta.url).pathname.replace(/\/$/, '');
const room = mkdtempSync(`${tmpdir()}/kbd48-runner-`);
process.on('exit', () => rmSync(room, { recursive: true }));

/** Prints a file, the number of its words, or what its first word says. */
const PROGRAM = {
  run([command, word, ...rest], files) {
    const said = (exit, text) => ({ exit, bytes: Buffer.from(text, 'latin1') });
    switch (command) {
      case 'show': return files[word] ? { exit: 0, bytes: files[word] } : said(1, '');
      case 'count': return said(0, `${(word === undefined ? 0 : 1) + rest.length}\n`);
      case 'bytes': return said(0, `${Buffer.from(word).length}\n`);
      case 'two': return said(0, `at 17 end\nat ${word} end\n`);
      case 'stamps': return said(0, '-4096 a\n2047 b\n2048 c\n');
      case 'unlike': return said(0, `${word}\n`);
      case 'ends': return said(Number(word), '');
      default: return said(2, 'refused\n');
    }
  },
};

function read(text) {
  writeFileSync(`${room}/some.rows`, text);
  return readRows(`${room}/some.rows`, 'some');
}

const answers = text => read(text).flatMap(row => wrongCalls(PROGRAM, row, TOP));
const passes = text => assert.deepEqual(answers(text).filter(wrong => wrong !== undefined), [], text);

/** One call at least doesn't answer as its row says, and is reported with this text. */
function fails(text, word) {
  const wrong = answers(text).find(it => it !== undefined);
  assert.ok(wrong !== undefined, text);
  assert.ok(wrong.includes(word), wrong);
}

/** The text isn't one of rows, for a reason with this text. */
const refused = (text, word) => assert.throws(() => read(text), error => error instanceof RowFault && error.message.includes(word), text);

const TESTS = {
  'bytes are exact'() {
    const row = '== a row\n$ show f\nf:\n  one\n  two\\\nexit 0:\n  one\n  two\\\n';
    passes(row);
    fails(row.replace('exit 0:\n  one', 'exit 0:\n  onf'), 'printed');
    fails(row.replace('f:\n  one', 'f:\n  onf'), 'printed');
    fails(`${row.slice(0, -2)}\n`, 'printed');
    fails(row.replace('exit 0', 'exit 3'), 'ended with 0 instead of 3');
    fails(row.replace('show f', 'show g'), 'ended with 1 instead of 0');
    fails(`${row}  three\n`, 'printed');
  },
  'the status is exact'() {
    passes('== a row\n$ ends 3\nexit 3:\n');
    fails('== a row\n$ ends 3\nexit 4:\n', 'ended with 3 instead of 4');
  },
  'escapes are bytes'() {
    passes('== a row\n$ show f\nf: \\x41\\n\\x42\\\\\\t\nexit 0:\n  A\n  B\\\\\\x09\n');
    passes('== a row\n$ show f\nf: \\xFF\\0é\\\nexit 0: \\xff\\x00\\xC3\\xA9\\\n');
    fails('== a row\n$ show f\nf: \\xFF\nexit 0: \\xFE\n', 'printed');
    refused('== a row\n$ show f\nf: \\q\nexit 0:\n', '\\q');
  },
  'words are parted by single spaces'() {
    passes('== a row\n$ count a "" b\nexit 0: 3\n');
    fails('== a row\n$ count a b\nexit 0: 3\n', 'printed');
  },
  'words are texts, and one that is none leaves no words'() {
    passes('== a row\n$ bytes \\xC3\\xA9\nexit 0: 2\n');
    passes('== a row\n$ bytes é\nexit 0: 2\n');
    passes('== a row\n$ bytes \\xFF\nexit 2: refused\n');
  },
  'files have pieces'() {
    passes('== a row\n$ show f\nf (3 times): a\nf: b\nexit 0:\n  a\n  a\n  a\n  b\n');
    passes('== a row\n$ show f\nf <- show g\ng: made\nexit 0: made\n');
    fails('== a row\n$ show f\nf <- show g\nexit 0:\n', 'has no files');
    passes('f: all\n== a row\n$ show f\nexit 0: all\n== another\n$ show f\nf: own\nexit 0: own\n');
    passes(`== a row\n$ show f\nf = HANDLES\nexit 0: ${readFileSync(`${TOP}/HANDLES`, 'utf8')}`);
  },
  'each line of a table is a case'() {
    const table = '== a row\nfor A B:\n  1 | x\n  2 | y\n$ show f\nf: {A}{B}\nexit 0: {A}{B}\n';
    passes(table);
    assert.equal(answers(table).length, 2);
    assert.equal(answers(table.replace('exit 0: {A}{B}', 'exit 0: 1{B}')).filter(it => it !== undefined).length, 1);
    refused(table.replaceAll('{B}', ''), '{B}');
    refused(table.replace('1 | x', '1'), '2 columns');
  },
  'texts have names'() {
    passes('let TWO:\n  one\n  two\n== a row\n$ show f\nf: {TWO}\nexit 0:\n  {TWO}\n');
    refused('== a row\n$ show f\nexit 0: {TWO}\n', '{TWO}');
  },
  'a free number is one number'() {
    const row = '== a row\n$ two 17\nexit 0:\n  at <N> end\n  at <N> end\n';
    passes(row);
    fails(row.replace('two 17', 'two 18'), 'printed');
    passes(row.replace('two 17', 'two 18').replace('  at <N> end\n', '  at <M> end\n'));
    fails(row.replace('two 17', 'two x'), 'printed');
  },
  'free lines are whole'() {
    passes('== a row\n$ two 18\nexit 0:\n  ...\n  at 18 end\n');
    passes('== a row\n$ two 18\nexit 0:\n  at <...> end\n  ...\n');
    fails('== a row\n$ two 18\nexit 0:\n  ...\n  8 end\n', 'printed');
    fails('== a row\n$ two 18\nexit 0:\n  ...\n  at 17 end\n', 'printed');
    fails('== a row\n$ two 18\nexit 0:\n  .t 17 end\n  at 18 end\n', 'printed');
  },
  'lines from a start are all of them'() {
    const row = '== a row\n$ two 18\nexit 0:\n  ...\nlines from at:\n  at 17 end\n  at 18 end\n';
    passes(row);
    fails(row.replace('  at 17 end\n', ''), 'has these lines from at');
    fails(`${row}  at 19 end\n`, 'has these lines from at');
  },
  'stamps are ticks'() {
    passes('== a row\n$ stamps\nexit 0 in ticks:\n  -2 a\n  0 b\n  1 c\n');
    fails('== a row\n$ stamps\nexit 0 in ticks:\n  -2 a\n  1 b\n  1 c\n', 'printed');
  },
  'the calls of a row print the same'() {
    passes('== a row\n$ unlike 5\n$ unlike 5\nexit 0: <N>\n');
    fails('== a row\n$ unlike 5\n$ unlike 6\nexit 0: <N>\n', "its row's first call");
  },
  'what is no row is refused'() {
    for (const [text, word] of [
      ['$ words\n', 'no row yet'],
      ['== a row\n$ count\n', 'an exit'],
      ['== a row\nexit 0:\n', '$ line'],
      ['== a row\n$ count\nexit 0:\nexit 1:\n', 'two exits'],
      ['== a row\n$ count\nexit 0:\n== a row\n$ count\nexit 0:\n', 'two rows'],
      ['== a row\n$ count\nnothing\nexit 0:\n', 'left edge'],
      ['== a row\n  astray\n$ count\nexit 0:\n', 'left edge'],
      ['== a row\nfor A:\n$ count\nexit 0:\n', 'table is empty'],
    ]) refused(text, word);
  },
  'examples have a status, a text and words'() {
    writeFileSync(`${room}/f`, 'one\n');
    const [good, bad, otherStatus, byte] = examplesOf('# a comment\n\n0 f show f\n0 f unlike two\n1 f show f\n2 g bytes \\0377\n');
    writeFileSync(`${room}/g`, 'refused\n');
    assert.equal(wrongExample(PROGRAM, good, room), undefined);
    assert.equal(wrongExample(PROGRAM, byte, room), undefined);
    assert.match(wrongExample(PROGRAM, bad, room), /ended with 0 and printed "two/);
    assert.match(wrongExample(PROGRAM, otherStatus, room), /ended with 0 and printed "one/);
  },
};

/** A stand-in for the repository with these rows, and what threads over the page's module find wrong in it. */
async function threaded(rows, seconds) {
  const top = `${room}/top`, found = [];
  rmSync(top, { recursive: true, force: true });
  mkdirSync(`${top}/tests/rows`, { recursive: true });
  mkdirSync(`${top}/examples`);
  writeFileSync(`${top}/tests/rows/some.rows`, rows);
  writeFileSync(`${top}/examples/commands`, '0 said words 1C\n');
  writeFileSync(`${top}/examples/said`, 'port 1E\nword 1E61\n');
  const module = new WebAssembly.Module(programOf(`${TOP}/lab/lab.html`));
  await new Threads(top, module, seconds).run(casesOf(top, []), (one, wrong) => found.push(...wrong));
  return found;
}

for (const [name, test] of Object.entries(TESTS)) {
  try {
    test();
  } catch (error) {
    error.message = `${name}: ${error.message}`;
    throw error;
  }
}
const good = '== a\n$ words 1C\nexit 0:\n  port 1E\n  word 1E61\n== b\n$ sample 10000\nexit 0: <...>\n';
assert.deepEqual(await threaded(good, 60), [undefined, undefined, undefined], 'threads');
assert.equal((await threaded(good.replaceAll('word 1E61', 'word 1E62'), 60)).filter(it => it?.startsWith('printed "port 1E')).length, 1);
assert.ok((await threaded(good.slice(good.indexOf('== b')), 0.2)).includes("hasn't ended after 0.2 s"), 'a call that takes too long fails');
assert.throws(() => casesOf(TOP, ['nogroup']), /there is no group nogroup/);
console.log(`the runner in JavaScript: ${Object.keys(TESTS).length + 4} passed`);
