// The lessons: what is accepted and what is refused, with the first difference; their paths, their sheets, and the way through
// them by the keyboard alone.
import assert from 'node:assert/strict';
import { readFileSync } from 'node:fs';
import { gunzipSync } from 'node:zlib';
import { ALWAYS_WRONG, SOLUTIONS } from '../solutions.mjs';

const LONGEST_CHECK = 300_000; // ms, on a busy machine

/** Waits until the check is over, and looks at what it says. */
async function checkSays(browser, form) {
  for (const end = Date.now() + LONGEST_CHECK; Date.now() < end && await browser.evaluate('document.getElementById("lesson-result").hasAttribute("aria-busy")');) await browser.wait(50);
  await browser.says('lesson-result', form);
}

const checks = async (browser, text, form) => {
  await browser.put('lesson-file', text);
  await browser.click('#lesson-check');
  await checkSays(browser, form);
};

/** Each lesson's first file fails its check with two hints beside it, and wrong solutions fail it. */
export async function lessons(browser, shot) {
  await browser.only('lessons');
  const many = await browser.evaluate('document.querySelectorAll("#lesson-list button").length');
  for (let number = 1; number <= many; number++) {
    await browser.evaluate(`document.querySelectorAll("#lesson-list button")[${number - 1}].click()`);
    const name = await browser.evaluate('lab.lessons.name'), answer = readFileSync(new URL(`../../answers/${name}`, import.meta.url), 'utf8');
    await browser.click('#lesson-check');
    await checkSays(browser, /^Not yet/);
    assert.equal(await browser.evaluate('document.querySelectorAll("#lesson-hints details").length'), 2);
    for (const { edit, says } of SOLUTIONS[number].wrong.filter((it, n, all) => (it.wasAccepted && (number === 1 || it !== ALWAYS_WRONG[0])) || n === all.length - 1)) {
      const text = typeof edit === 'string' ? edit : edit.reduce((now, [from, to]) => now.replace(from, () => to), answer);
      await checks(browser, text, /^Not yet/);
      await browser.says('lesson-result', says);
    }
  }
  assert.equal(await browser.evaluate('document.querySelectorAll("#lesson-list .done").length'), 0);
  return many;
}

/** A wrong answer shows what was expected beside what came; if it is about the wires, their picture too. */
export async function differences(browser, shot) {
  await browser.only('lessons');
  await browser.evaluate('lab.lessons.open(0)');
  const answer = readFileSync(new URL('../../answers/lesson1.asm', import.meta.url), 'utf8');
  await checks(browser, answer.replace('DB 29H', 'DB 1CH'), /^Not yet: key a goes down and up: what the PC reads: expected port 39, got port 1E$/);
  assert.deepEqual([await browser.textOf('lesson-expected'), await browser.textOf('lesson-got')], ['> port 39', '> port 1E']);
  assert.match(await browser.textOf('lesson-log'), /^\$ kbd48 board lesson1\.hex four_keys\.toml four_keys\.keys\n4440 port 1E\n/);
  assert.ok(await browser.evaluate('document.getElementById("lesson-wave").hidden'));
  await checks(browser, answer.replace('        NOP\n        NOP\n        NOP\n', ''), /cycles from a fall of the clock to the next, at stamp 4058: expected 32, got 29$/);
  assert.ok(await browser.evaluate('!document.getElementById("lesson-wave").hidden'));
  const drawn = await browser.evaluate('(it => { const { data } = it.getContext("2d").getImageData(0, 0, it.width, it.height); return new Set(new Uint32Array(data.buffer)).size; })(document.getElementById("lesson-wave"))');
  assert.ok(drawn > 2, 'the wires are drawn');
  await shot('lessons');
  await refusals(browser, answer);
  // Whoever opens another lesson while one is checked hears nothing of it there.
  await browser.put('lesson-file', answer);
  await browser.evaluate('document.getElementById("lesson-check").click(); lab.lessons.open(3)');
  await browser.wait(1500);
  assert.equal(await browser.textOf('lesson-result'), '');
}

// What the program refuses has what was expected and what came too: a source, a list of bytes, a certificate.
async function refusals(browser, answer) {
  const refused = async (number, text, form, expected, got) => {
    await browser.evaluate(`lab.lessons.open(${number - 1})`);
    await checks(browser, text, form);
    assert.deepEqual([await browser.textOf('lesson-expected'), await browser.textOf('lesson-got')], [expected, got]);
    assert.ok(await browser.evaluate('document.getElementById("lesson-got").checkVisibility() && document.getElementById("lesson-wave").hidden'));
  };
  const certificate = readFileSync(new URL('../../answers/lesson8.cert', import.meta.url), 'utf8').replace('01D 398', '01D 397');
  await refused(4, '12 1C ZZ F0', /^Not yet: /, '  12\n  1C\n> a byte: two hexadecimal digits', '  12\n  1C\n> ZZ');
  await refused(8, certificate, /^Not yet: line 2: the bound is too small/, '  1 target 057\n> 2 a bound that is at least that of each place that can follow, plus the cycles of this instruction', '  1 target 057\n> 2 01D 397');
  await refused(1, 'MOV A,#1\nMOV B,A\n', /^Not yet: line 2: the instruction has no such operands/, '  1 MOV A,#1\n> 2 an instruction with operands that it takes', '  1 MOV A,#1\n> 2 MOV B,A');
  await refused(1, 'JMP nowhere\n', /^Not yet: line 1: no line defines/, '> 1 names that some line defines', '> 1 JMP nowhere');
  await browser.put('lesson-file', answer);
}

const MOST_TABS = 80;

/** Presses Tab, or Shift and Tab, up to an element. */
async function tabTo(browser, selector, back = false) {
  const isThere = `document.activeElement.matches(${JSON.stringify(selector)})`;
  for (let count = 0; count < MOST_TABS && !await browser.evaluate(isThere); count++) await (back ? browser.tabBack() : browser.stroke('Tab', 2));
  assert.ok(await browser.evaluate(isThere), `Tab comes to ${selector}`);
}

async function press(browser, selector) {
  await tabTo(browser, selector);
  await browser.write('\n');
}

// A solution without what its comments say, since it is typed.
const withoutComments = line => line.replace(/\s*;.*$/, '').replace(/ +/g, ' ');

/** Makes the open lesson's file this text, or one that differs in its comments alone: the lines that differ are selected and typed. */
async function typeOver(browser, text) {
  const from = (await browser.valueOf('lesson-file')).split('\n'), to = text.split('\n'), most = Math.min(from.length, to.length);
  let same = 0, sameAtEnd = 0;
  while (same < most && from[same] === to[same]) same++;
  while (sameAtEnd < most - same && from.at(-1 - sameAtEnd) === to.at(-1 - sameAtEnd)) sameAtEnd++;
  const typed = to.slice(same, to.length - sameAtEnd).map(withoutComments);
  await browser.control('Home');
  await browser.presses('ArrowDown', same);
  await browser.presses('ArrowDown', from.length - same - sameAtEnd, true);
  await browser.write(typed.map(line => `${line}\n`).join(''));
  const whole = [...to.slice(0, same), ...typed, ...to.slice(to.length - sameAtEnd)].join('\n');
  await browser.until(`document.getElementById('lesson-file').value === ${JSON.stringify(whole)}`);
}

const LAST_LESSON = 20;

/** The whole course by the keyboard alone: the path is chosen and its first lesson; then each lesson is begun again and checked, the
    first difference is read, the file is edited into a solution and accepted, and the next lesson follows, up to the end. */
export async function byKeyboard(browser) {
  await browser.only('keyboard');
  await browser.evaluate('document.querySelector("#panes button").focus()');
  await press(browser, '#panes [data-pane=lessons]');
  await browser.until('document.getElementById("lessons").checkVisibility()');
  await browser.evaluate('lab.show("keyboard", false)');
  await tabTo(browser, '#path');
  for (const path of ['a day', 'an hour']) {
    await browser.stroke('ArrowDown', 5);
    await browser.until(`document.getElementById("path").value === ${JSON.stringify(path)}`);
  }
  assert.deepEqual(await browser.evaluate('[...document.querySelectorAll("#lesson-list button")].map(it => Number(it.dataset.lesson))'), [1, 4, 2, 3]);
  for (let count = 0; count < 2; count++) await browser.stroke('ArrowUp', 5);
  await browser.until('document.getElementById("path").value === "a term"');
  await press(browser, '#lesson-list [data-lesson="1"]');
  for (let number = 1; number <= LAST_LESSON; number++) {
    await browser.until(`lab.lessons.number === ${number - 1}`);
    await press(browser, '#lesson-reset');
    await browser.wait(100);
    if (await browser.evaluate('document.getElementById("ask").open')) await press(browser, '#ask-yes');
    await press(browser, '#lesson-check');
    await checkSays(browser, /^Not yet/);
    for (const side of ['expected', 'got']) {
      await tabTo(browser, `#lesson-${side}`);
      assert.match(await browser.textOf(`lesson-${side}`), /^> ./m, `lesson ${number}: what was ${side}`);
    }
    assert.notEqual(await browser.textOf('lesson-expected'), await browser.textOf('lesson-got'));
    await tabTo(browser, '#lesson-file', true);
    await typeOver(browser, readFileSync(new URL(`../../answers/${await browser.evaluate('lab.lessons.name')}`, import.meta.url), 'utf8'));
    await press(browser, '#lesson-check');
    await checkSays(browser, /^Done/);
    assert.ok(await browser.evaluate('document.getElementById("lesson-differs").hidden && document.getElementById("lesson-wave").hidden'));
    if (number === LAST_LESSON) break;
    await press(browser, '#lesson-next');
    await browser.until('document.activeElement.id === "lesson-title"');
  }
  assert.ok(await browser.evaluate('document.getElementById("lesson-next").hidden'), 'the path has an end');
  assert.equal(await browser.evaluate('document.querySelectorAll("#lesson-list .done").length'), LAST_LESSON);
}

/** Each path has its lessons with their own numbers, and each lesson the section of the document that says more. */
export async function paths(browser, shot) {
  await browser.only('lessons');
  for (const [name, lessons] of [['a term', Array.from({ length: 20 }, (_, n) => n + 1)], ['a day', [1, 2, 3, 4, 5, 6, 7, 8]], ['an hour', [1, 4, 2, 3]]]) {
    await browser.put('path', name);
    assert.deepEqual(await browser.evaluate('[...document.querySelectorAll("#lesson-list li")].map(it => it.value)'), lessons);
    assert.match(await browser.textOf('path-says'), /minutes|a week/);
  }
  await browser.put('path', 'a term');
  await browser.evaluate('lab.lessons.open(16); document.getElementById("lesson-more").open = true');
  assert.match(await browser.textOf('lesson-more'), /More on this: A whole keyboard.*The program of four keys has one loop/s);
  await browser.evaluate('lab.lessons.open(2); document.getElementById("lesson-more").open = true');
  assert.ok(await browser.evaluate('document.querySelectorAll("#lesson-more tr").length > 8 && document.querySelector("#lesson-more tbody td").textContent === "0"'), 'a table of the document is one of the page');
  await browser.evaluate('document.getElementById("lesson-more").open = false');
}

/** The instructions for beginners are in the page, with the flags that each changes, as the document has them. */
export async function instructions(browser, shot) {
  const document = readFileSync(new URL('../../../docs/INSTRUCTIONS.md', import.meta.url), 'utf8');
  const rows = [...document.matchAll(/^\| (`.*) \| (.*) \| ([12]) \| (.*) \|$/gm)].map(([, ...cells]) => cells.map(cell => cell.replaceAll('`', '')));
  assert.ok(rows.length > 50 && rows.some(([name, , , flags]) => name === 'DA A' && flags === 'C'), `${rows.length} rows`);
  await browser.only('lessons');
  await browser.click('#instructions summary');
  const seen = await browser.evaluate('[...document.querySelectorAll("#instructions tbody tr")].map(row => [...row.cells].map(it => it.textContent)).filter(row => row.length === 4)');
  assert.deepEqual(seen, rows);
  assert.ok(await browser.evaluate('document.querySelector("#instructions table").checkVisibility()'));
  await shot('instructions');
  await browser.click('#instructions summary');
  await browser.evaluate('globalThis.printed = 0; globalThis.print = () => { printed++; }; 0');
  await browser.click('#print-instructions');
  assert.deepEqual(await browser.evaluate('[printed, document.querySelectorAll(".sheet").length, document.querySelectorAll(".sheet tbody tr").length === document.querySelectorAll("#instructions tbody tr").length]'), [1, 1, true]);
  await browser.evaluate('dispatchEvent(new Event("afterprint"))');
}

/** The sheets for the printer: each lesson's text, its program and lines to write on, and nothing of the page around them. */
export async function sheets(browser, shot) {
  await browser.only('lessons');
  await browser.put('path', 'an hour');
  await browser.evaluate('globalThis.printed = 0; globalThis.print = () => { printed++; }; 0');
  await browser.click('#lesson-print');
  assert.equal(await browser.evaluate('printed'), 1);
  assert.equal(await browser.evaluate('document.querySelectorAll(".sheet").length'), 1);
  await browser.click('#print-path');
  // What holds for the printer holds for the screen too for a moment.
  const media = to => browser.evaluate(`(() => { for (const rule of document.styleSheets[0].cssRules) if (rule.media?.mediaText === ${JSON.stringify(to === 'all' ? 'print' : 'all')}) rule.media.mediaText = '${to}'; })()`);
  await media('all');
  const seen = await browser.evaluate(`({
    titles: [...document.querySelectorAll('.sheet h2')].map(it => it.textContent), lines: document.querySelectorAll('.sheet .line').length,
    others: [...document.querySelectorAll('button, section, header, footer, textarea')].filter(it => it.checkVisibility()).length,
    wide: document.documentElement.scrollWidth <= innerWidth, hints: document.getElementById('sheets').textContent.includes('Which mask has five?'),
    task: document.querySelector('.sheet strong').textContent, program: document.querySelector('.sheet pre').textContent })`);
  await shot('sheets');
  await media('print');
  assert.deepEqual(seen.titles, ['1. A program that runs', '4. What becomes of a byte', '2. Pins: the matrix', '3. A byte on the wires']);
  assert.ok(seen.lines === 48 && seen.others === 0 && seen.wide && !seen.hints, JSON.stringify(seen));
  assert.match(seen.task, /^Task\. Let the first key be the space bar/);
  assert.match(seen.program, /bytes: {2}DB 1CH,32H,21H,23H/);
  await browser.evaluate('dispatchEvent(new Event("afterprint"))');
  assert.equal(await browser.evaluate('document.querySelectorAll(".sheet").length'), 0);
  await browser.evaluate('lab.lessons.open(3); dispatchEvent(new Event("beforeprint"))');
  assert.equal(await browser.evaluate('document.querySelector(".sheet h2").textContent'), '4. What becomes of a byte', 'the browser\'s own menu prints the open lesson');
  await browser.evaluate('dispatchEvent(new Event("afterprint"))');
  await browser.put('path', 'a term');
}

/** The link of a lesson carries the lesson and its file. */
export async function link(browser) {
  await browser.only('lessons');
  await browser.evaluate('document.querySelectorAll("#lesson-list button")[2].click()');
  const text = '; handed on\n';
  await browser.put('lesson-file', text);
  await browser.click('#lesson-share');
  await browser.says('lesson-result', /now carries lesson3\.asm/);
  const packed = (await browser.evaluate('location.hash')).replace('#lab=', '');
  assert.deepEqual(JSON.parse(gunzipSync(Buffer.from(packed, 'base64url'))), { files: { 'lesson3.asm': text }, open: 'lesson3.asm', lesson: 2 });
}
