// The workbench: files, commands, what they print, links, and files that are broken.
import assert from 'node:assert/strict';
import { readFileSync, writeFileSync } from 'node:fs';
import { join } from 'node:path';
import { gzipSync } from 'node:zlib';
import { savedWhile } from './saving.mjs';

const packed = value => gzipSync(typeof value === 'string' ? value : JSON.stringify(value)).toString('base64url');
// Links that are broken, each with what is said of it. The last has 50 MB in 50 kB.
const BROKEN_LINKS = [
  ['files=AAAA', /the link is broken: a part of it is missing or changed/], ['files=H4sIAAAAAAAA', /the link is broken: a part/], ['files=H4sIAAAAAAAAA', /the link is broken: its letters/], ['lab=%', /the link is broken: its letters/],
  [`lab=${packed('{"files":')}`, /what it carries is no text of this page/], [`lab=${packed({ files: {} })}`, /no file could be read/],
  [`lab=${packed({ files: { '../x': 'y' } })}`, /\.\.\/x is no file/], [`files=${packed({ 'a.asm': 5 })}`, /a\.asm is no file/],
  [`lab=${packed(`{"files":{"a.asm":"${' '.repeat(50 << 20)}"}}`)}`, /it has more than 4194304 bytes/],
];

const STROKES = 300;

const run = async (browser, words) => {
  await browser.put('words', words);
  await browser.click('#do');
};

/** Files: a new one, its faults in words at the line, its image, a run; what is downloaded is what was made. */
export async function sources(browser) {
  await browser.only('workbench');
  await browser.click('#new-file');
  await browser.put('text', 'MOV A,#5\nloop: DEC B\nJMP loop\n');
  await run(browser, 'asm own1.asm');
  await browser.says('told', /exit 3: line 2: the instruction has no such operands/);
  assert.equal(await browser.evaluate('(it => it.value.slice(it.selectionStart, it.selectionEnd))(document.getElementById("text"))'), 'loop: DEC B');
  await browser.put('text', 'MOV A,#5\nloop: DEC A\nJMP loop\n');
  await browser.click('#do');
  await browser.says('answer', /^:100000002305070402/);
  assert.equal(await browser.textOf('download'), 'Download own1.hex');
  await browser.click('#keep');
  await run(browser, 'step own1.hex 3');
  await browser.says('answer', /pc 002 a 04 /);
  await keepAsks(browser);
  await browser.evaluate('lab.workbench.open("own1.asm")');
  await browser.put('text', 'MOV A,#9\nloop: DEC A\nJMP loop\n');
  await browser.click('#do');
  await browser.says('answer', /pc 002 a 08 /);
}

/** What is saved and downloaded, as the page hands it to the browser. */
export async function downloads(browser, examples) {
  const saved = await savedWhile(browser, async () => {
    await run(browser, 'compile us84.toml');
    assert.equal(await browser.textOf('download'), 'Download us84.hex');
    await browser.click('#download');
    await browser.evaluate('lab.workbench.open("capital_a.keys")');
    await browser.click('#save-file');
  });
  assert.deepEqual(saved, ['us84.hex', 'capital_a.keys'].map(name => [name, readFileSync(join(examples, name))]));
}

/** run beside expect, a trace as a picture, a certificate, and a refusal. */
export async function runs(browser, shot) {
  await browser.evaluate('lab.workbench.open("typing_hi.keys"); document.querySelector("#offers button").click()');
  await browser.says('told', /both print the same/);
  assert.equal(await browser.textOf('answer'), await browser.textOf('other'));
  await run(browser, 'trace us84.toml typing_hi.keys');
  assert.equal(await browser.evaluate('lab.workbench.traced.bytes.map(it => it.byte.toString(16)).join(" ")'), 'aa 12 33 f0 33 f0 12 43 f0 43 5a f0 5a');
  assert.ok(await browser.evaluate('!document.getElementById("trace").hidden && document.getElementById("trace").height > 0'));
  await shot('workbench');
  await run(browser, 'cert four_keys.hex four_keys.cert');
  await browser.says('told', /^exit 0/);
  await browser.evaluate('lab.workbench.open("four_keys.cert")');
  const whole = await browser.valueOf('text');
  await browser.put('text', whole.replace('01D 398', '01D 397'));
  await browser.click('#do');
  await browser.says('told', /^exit 3: line \d+: /);
  await browser.put('text', whole);
  await run(browser, 'run us84.toml nothing.keys');
  await browser.says('told', /exit 5: a file that the words name is not here/);
  await run(browser, 'no such command');
  await browser.says('told', /exit 2: these words are no command of kbd48/);
}

/** Files that are broken: each is refused in words, and what ran goes on. */
export async function brokenFiles(browser, folder) {
  const file = (name, bytes) => {
    writeFileSync(join(folder, name), bytes);
    return join(folder, name);
  };
  await browser.only('workbench');
  await browser.choose('#open-file', [file('latin.asm', Buffer.from([0x3B, 0xE9, 0x0A]))]);
  await browser.says('shared', /latin\.asm: it is no UTF-8 text/);
  await browser.choose('#open-file', [file('long.asm', Buffer.alloc(5 << 20, 0x20))]);
  await browser.says('shared', /long\.asm is longer than any file that the program reads/);
  await browser.choose('#open-file', [file('short.hex', ':0100000001FF\n:00000001FF\n')]);
  await browser.until('"short.hex" in lab.files');
  await run(browser, 'list short.hex');
  await browser.says('told', /^exit 3: line 1: /);
  await browser.choose('#open-file', [file('name with spaces.keys', '10ms press nothing\n20ms end\n')]);
  await browser.until('"name_with_spaces.keys" in lab.files');
  await run(browser, 'run us84.toml name_with_spaces.keys');
  await browser.says('told', /^exit [34]: line 1: /);
  await browser.evaluate('lab.workbench.open("sixty.toml")');
  const whole = await browser.valueOf('text');
  await browser.put('text', whole.replace('column = 0', 'column = 12'));
  await browser.only('keyboard');
  const before = await browser.evaluate('lab.live.stamp');
  await browser.put('layout', 'sixty.toml');
  await browser.says('layout-fault', /sixty\.toml wasn't opened: entry 1 of the layout: /);
  await browser.until(`lab.live.stamp > ${before}`);
  await browser.choose('#open-board', [file('torn.json', '[["a",')]);
  await browser.says('board-told', /torn\.json/);
  assert.equal(await browser.evaluate('document.querySelector("#board-told p").className'), 'wrong');
  await browser.choose('#open-board', [file('board.toml', 'format = 1\n')]);
  await browser.says('layout-fault', /board\.toml wasn't opened: the layout: /);
  await browser.put('layout', 'us84.toml');
}

// What the user has made of an image isn't lost by Keep without a question.
async function keepAsks(browser) {
  const image = () => browser.evaluate('lab.files["own1.hex"]'), made = await image(), mine = 'mine\n';
  await browser.evaluate('lab.workbench.open("own1.hex")');
  await browser.put('text', mine);
  await run(browser, 'asm own1.asm');
  for (const [answer, kept] of [['no', mine], ['yes', made]]) {
    await browser.click('#keep');
    await browser.until('document.getElementById("ask").open');
    await browser.click(`#ask-${answer}`);
    await browser.until('!document.getElementById("ask").open');
    await browser.until(`lab.files["own1.hex"] === ${JSON.stringify(kept)}`);
  }
  await run(browser, 'step own1.hex 3');
}

/** A long run is made beside the page: the keyboard goes on, the run can be stopped, and of a long text the lines are put into
    the page as they are seen. */
export async function longRuns(browser) {
  const strokes = Array.from({ length: STROKES }, (_, n) => `${500 + 80 * n}ms press a\n${540 + 80 * n}ms release a\n`).join('');
  for (const [name, text] of [['long.keys', `${strokes}30000ms end\n`], ['longest.keys', '400ms press a\n600000ms end\n']]) {
    await browser.evaluate(`lab.workbench.take([new File([${JSON.stringify(text)}], '${name}')])`);
    await browser.until(`"${name}" in lab.files`);
  }
  await browser.only('workbench');
  await browser.evaluate(`globalThis.turns = 0; globalThis.watching = setInterval(() => { turns += !document.getElementById('runs').hidden; }, 10); 0`);
  await run(browser, 'trace us84.toml long.keys');
  // The page itself counts, since the run may be over before this test looks.
  await browser.until('turns > 0');
  await browser.says('told', /^exit 0, \d{6,} bytes/);
  assert.ok(await browser.evaluate('turns') > 3, 'the page goes on while the run is made');
  assert.equal(await browser.evaluate('lab.workbench.traced.bytes.length'), 1 + 3 * STROKES);
  const lines = () => browser.evaluate('document.getElementById("answer").textContent.split("\\n").length');
  const first = await lines();
  assert.ok(first < 2000, `${first} lines are in the page`);
  await browser.evaluate('(it => { it.scrollTop = it.scrollHeight; })(document.getElementById("answer"))');
  await browser.until(`document.getElementById("answer").textContent.split("\\n").length > ${first}`);
  await run(browser, 'trace us84.toml longest.keys');
  await browser.until('!document.getElementById("runs").hidden');
  await browser.click('#stop-run');
  await browser.says('told', /The run was stopped/);
  // A run that the browser can't finish says so, and the next one is made.
  await browser.evaluate('globalThis.post = Worker.prototype.postMessage; Worker.prototype.postMessage = function (call) { post.call(this, call.words ? { ...call, words: null } : call); }; 0');
  await run(browser, 'run us84.toml long.keys');
  await browser.says('told', /^exit 7: the browser could not finish this run: ./);
  await browser.evaluate('Worker.prototype.postMessage = post; 0');
  await run(browser, 'run us84.toml long.keys');
  await browser.says('told', /^exit 0/);
  await browser.evaluate('lab.workbench.run("run us84.toml long.keys", "expect us84.toml long.keys"); 0');
  await browser.says('told', /^both print the same|^they differ/);
  await browser.evaluate('clearInterval(watching)');
  await tenMinutes(browser);
}

const OF_TEN_MINUTES = 7400, LONGEST_WAIT = 300_000, MOST_PAUSE = 1500; // strokes; ms

// A trace of ten minutes of typing is finished, and the page isn't blocked meanwhile; nor is it by such a key file in the processor.
async function tenMinutes(browser) {
  await browser.evaluate(`lab.workbench.take([new File([Array.from({ length: ${OF_TEN_MINUTES} }, (_, n) => (500 + 80 * n) + 'ms press a\\n' + (540 + 80 * n) + 'ms release a\\n').join('') + '600000ms end\\n'], 'ten_minutes.keys')])`);
  await browser.until('"ten_minutes.keys" in lab.files');
  await browser.evaluate('globalThis.pause = 0; globalThis.turned = performance.now(); globalThis.watching = setInterval(() => { const now = performance.now(); pause = Math.max(pause, now - turned); turned = now; }, 10); 0');
  await run(browser, 'trace us84.toml ten_minutes.keys');
  for (const end = Date.now() + LONGEST_WAIT; await browser.evaluate('document.getElementById("told").textContent === "It runs .."') && Date.now() < end;) await browser.wait(200);
  await browser.says('told', /^exit 0, \d{7,} bytes/);
  assert.equal(await browser.evaluate('lab.workbench.traced.bytes.length'), 1 + 3 * OF_TEN_MINUTES);
  const [pause, lines] = await browser.evaluate('clearInterval(watching); [pause, document.getElementById("answer").textContent.split("\\n").length]');
  assert.ok(pause < MOST_PAUSE, `the page stood still for ${Math.round(pause)} ms`);
  assert.ok(lines < 2000, `${lines} lines are in the page`);
  await browser.evaluate('lab.processor.choose("us84.toml", "us84.toml", "ten_minutes.keys"); 0');
  assert.equal(await browser.evaluate('lab.processor.session.said.length'), 0, 'the log of the run comes later');
  await browser.until('!document.getElementById("runs").hidden');
  await browser.click('#stop-run');
  await browser.until('document.getElementById("runs").hidden');
  await browser.evaluate('lab.processor.choose("four_keys.asm", "four_keys.toml", "four_keys.keys"); 0');
  assert.ok(await browser.evaluate('lab.processor.session.said.length > 0'));
}

// A link that the page would refuse isn't made: its files are too long, or too long when they are packed. One of the greatest length is.
async function longLinks(browser) {
  const address = await browser.evaluate('lab.workbench.open("own1.asm"); location.href');
  const offered = async text => {
    await browser.evaluate(`lab.files['long.text'] = ${text}; 0`);
    await browser.put('words', 'type us84.toml long.text');
    await browser.evaluate('document.getElementById("shared").textContent = ""');
    await browser.click('#share');
    await browser.until('document.getElementById("shared").textContent !== ""');
    return browser.textOf('shared');
  };
  assert.match(await offered('" ".repeat(5 << 20)'), /^No link carries own1\.asm, us84\.toml, long\.text: they have 52\d{5} bytes, and a link carries at most 4194304\. Save all/);
  assert.match(await offered('Array.from({ length: 30 }, () => crypto.getRandomValues(new Uint8Array(60000)).reduce((text, byte) => text + String.fromCharCode(33 + byte % 90), "")).join("")'), /^No link carries .*: packed they have \d{7,} letters, and a link has at most 1048576/);
  assert.equal(await browser.evaluate('location.href'), address, 'the address stays');
  assert.match(await offered('" ".repeat((4 << 20) - 10000)'), /now carries own1\.asm, us84\.toml, long\.text/);
  await browser.evaluate('delete lab.files["long.text"]');
}

/** A link carries the open file and those that the command names; a broken one is said to be broken. */
export async function shareLink(browser, url) {
  await browser.only('workbench');
  await browser.evaluate('lab.workbench.open("own1.asm")');
  await browser.evaluate(`lab.files['mine.toml'] = lab.files['four_keys.toml'].replace('"a"', '"z"')`);
  await browser.put('words', 'board own1.hex mine.toml four_keys.keys');
  await browser.click('#share');
  await browser.says('shared', /carries own1\.asm, own1\.hex, mine\.toml, four_keys\.keys\. The link\. This page is a file of this computer/);
  const link = await browser.evaluate('location.href');
  assert.ok(link.startsWith(`${url}#lab=`), 'the files are in the fragment');
  await browser.go(link);
  await browser.ready();
  assert.equal(await browser.valueOf('text'), 'MOV A,#9\nloop: DEC A\nJMP loop\n');
  assert.match(await browser.evaluate('lab.files["mine.toml"]'), /"z"/);
  assert.equal(await browser.valueOf('words'), 'board own1.hex mine.toml four_keys.keys', 'the command comes too');
  await longLinks(browser);
  for (const [broken, why] of BROKEN_LINKS) {
    await browser.go(`${url}#${broken}`);
    await browser.ready();
    await browser.says('trouble', why);
  }
  await browser.click('#trouble-gone');
}
