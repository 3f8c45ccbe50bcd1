// What the user has made: it is one copy, it comes back, and it isn't lost without a question.
import assert from 'node:assert/strict';
import { readFileSync, writeFileSync } from 'node:fs';
import { join } from 'node:path';
import { gzipSync } from 'node:zlib';

const answerOf = name => readFileSync(new URL(`../../answers/${name}`, import.meta.url), 'utf8');
const linkTo = (url, shared) => `${url}#lab=${gzipSync(JSON.stringify(shared)).toString('base64url')}`;
const isAsking = 'document.getElementById("ask").open';
const answer = async (browser, id) => {
  await browser.until(isAsking);
  await browser.click(`#${id}`);
  await browser.until(`!(${isAsking})`);
};
const becomes = (browser, id, text) => browser.until(`document.getElementById("${id}").value === ${JSON.stringify(text)}`);
const holds = (browser, name, text) => browser.until(`lab.files["${name}"] === ${JSON.stringify(text)}`);
const keptSoon = browser => browser.until('localStorage.getItem("kbd48 lab/file/lesson1.asm") === lab.files["lesson1.asm"]');
const last = 'saved.at(-1)';

/** Catches what the page saves. */
const catchSaves = browser => browser.evaluate(`globalThis.saved = []; globalThis.blobs = new Map();
  globalThis.madeBy ??= URL.createObjectURL;
  URL.createObjectURL = blob => { const url = madeBy.call(URL, blob); blobs.set(url, blob); return url; };
  HTMLAnchorElement.prototype.click = function () { saved.push([this.download, blobs.get(this.href)]); }; 0`);

/** Lesson, workbench and processor have one copy of a file; it is there after the page is opened again, with what is done. */
export async function oneCopy(browser, url) {
  await browser.only('lessons');
  await browser.evaluate('lab.lessons.open(0)');
  await browser.put('lesson-file', answerOf('lesson1.asm'));
  await browser.click('#lesson-bench');
  assert.equal(await browser.valueOf('file'), 'lesson1.asm');
  assert.equal(await browser.valueOf('words'), 'board lesson1.hex four_keys.toml four_keys.keys');
  await browser.says('answer', /^4440 port 39\n/);
  await browser.put('text', answerOf('lesson1.asm').replace('DB 29H', 'DB 2AH'));
  assert.match(await browser.valueOf('lesson-file'), /DB 2AH/, 'the workbench changes the lesson\'s file');
  await browser.click('#lesson-check');
  await browser.says('lesson-result', /^Not yet: key a/);
  await browser.put('lesson-file', answerOf('lesson1.asm'));
  assert.equal(await browser.valueOf('text'), answerOf('lesson1.asm'));
  await browser.click('#lesson-check');
  await browser.says('lesson-result', /^Done/);
  await browser.evaluate('lab.lessons.open(5)');
  await browser.put('lesson-file', answerOf('lesson6.asm').replace('CPL A                   ; 1', 'NOP                     ; 1'));
  await browser.click('#lesson-processor');
  assert.deepEqual(await browser.evaluate('["program", "program-layout", "program-keys"].map(id => document.getElementById(id).value)'), ['lesson6.asm', 'four_keys.toml', 'four_keys.keys']);
  assert.ok(await browser.evaluate('lab.processor.code.lines.some(it => /NOP +; 1 where the ones are even/.test(it.text))'), 'it is the program with the fault');
  // The processor says so if its program is changed.
  await browser.put('lesson-file', answerOf('lesson6.asm'));
  await browser.says('program-fault', /lesson6\.asm was changed: Power on/);
  await keptSoon(browser);
  await browser.until('localStorage.getItem("kbd48 lab/file/lesson6.asm") === lab.files["lesson6.asm"]');
  await browser.go(`${url}#again`);
  await browser.ready();
  assert.deepEqual(await browser.evaluate('["lesson1.asm", "lesson6.asm"].map(name => lab.files[name])'), ['lesson1.asm', 'lesson6.asm'].map(answerOf));
  assert.ok(await browser.evaluate('document.querySelector("#lesson-list button").classList.contains("done")'), 'what is done is marked');
}

/** Begin again asks, and can be undone. */
export async function beginAgain(browser) {
  await browser.only('lessons');
  await browser.evaluate('lab.lessons.open(0)');
  await browser.click('#lesson-reset');
  await answer(browser, 'ask-no');
  assert.equal(await browser.valueOf('lesson-file'), answerOf('lesson1.asm'));
  await browser.click('#lesson-reset');
  await answer(browser, 'ask-yes');
  await browser.until('/DB 1CH,32H,21H,23H/.test(document.getElementById("lesson-file").value)');
  await browser.click('#lesson-undo');
  await becomes(browser, 'lesson-file', answerOf('lesson1.asm'));
}

/** All that was made is saved as one file, and comes back from it; what would be replaced is asked about. */
export async function savedAsOne(browser, folder) {
  await browser.only('workbench');
  await catchSaves(browser);
  await browser.click('#save-all');
  const [name, text] = await browser.evaluate(`${last}[1].text().then(text => [${last}[0], text])`), work = join(folder, name);
  assert.equal(name, 'kbd48_work.json');
  writeFileSync(work, text);
  const mine = '; mine\n';
  await browser.evaluate('lab.workbench.open("lesson1.asm")');
  await browser.put('text', mine);
  await browser.choose('#open-file', [work]);
  await answer(browser, 'ask-no');
  assert.equal(await browser.evaluate('lab.files["lesson1.asm"]'), mine);
  await browser.choose('#open-file', [work]);
  await answer(browser, 'ask-yes');
  await holds(browser, 'lesson1.asm', answerOf('lesson1.asm'));
  await browser.click('#undo');
  assert.equal(await browser.evaluate('lab.files["lesson1.asm"]'), mine, 'undo brings the other back');
  await browser.choose('#open-file', [work]);
  await answer(browser, 'ask-yes');
  await holds(browser, 'lesson1.asm', answerOf('lesson1.asm'));
}

/** A link that comes while the page is open is taken; it replaces nothing of the user's without a question. */
export async function links(browser, url) {
  const text = '; from a link\n', shared = { files: { 'lesson1.asm': text, 'linked.keys': '5ms end\n' }, open: 'linked.keys', command: 'run us84.toml linked.keys' };
  await browser.evaluate(`location.hash = ${JSON.stringify(linkTo('', shared).slice(1))}`);
  await answer(browser, 'ask-no');
  await browser.until('document.getElementById("file").value === "linked.keys"');
  assert.equal(await browser.valueOf('words'), 'run us84.toml linked.keys');
  assert.equal(await browser.evaluate('lab.files["lesson1.asm"]'), answerOf('lesson1.asm'));
  await browser.evaluate(`location.hash = ${JSON.stringify(linkTo('', { ...shared, lesson: 0 }).slice(1))}`);
  await answer(browser, 'ask-yes');
  await becomes(browser, 'lesson-file', text);
  await browser.click('#lesson-undo');
  assert.equal(await browser.valueOf('lesson-file'), answerOf('lesson1.asm'));
  // A link with a layout that is wrong: the page says so and has its own.
  const wrong = (await browser.evaluate('lab.files["us84.toml"]')).replace('key = "a"', 'key = "zz"');
  await browser.evaluate('localStorage.clear()');
  await browser.go(linkTo(url, { files: { 'us84.toml': wrong } }));
  await browser.ready();
  await browser.says('layout-fault', /us84\.toml wasn't opened: entry \d+ of the layout: .* The keyboard has the layout that this page was made with/);
  assert.equal(await browser.evaluate('document.querySelectorAll("#board > div").length'), 84);
  await browser.until('lab.live.stamp > 200000');
  await browser.evaluate('document.getElementById("board").focus(); lab.keys.hold("a", true, "test"); lab.keys.hold("a", false, "test")');
  await browser.says('screen', /^a▁$/);
  await browser.evaluate('lab.workbench.open("us84.toml")');
  await browser.only('workbench');
}

/** A layout that is open may be edited while the keyboard goes on; files of any name are listed; a dropped file stays in the
    page; a long session is cut, and that is said. */
export async function edges(browser, url) {
  await browser.evaluate('localStorage.clear()');
  await browser.go(`${url}#fresh`);
  await browser.ready();
  await browser.only('workbench');
  await browser.evaluate('lab.workbench.open("us84.toml")');
  const live = 'globalThis.was === lab.live';
  await browser.evaluate('globalThis.was = lab.live; 0');
  await browser.put('text', (await browser.valueOf('text')).replace('format = 1', 'format = 1 # mine'));
  assert.ok(await browser.evaluate(live), 'the keyboard goes on');
  await browser.only('keyboard');
  assert.ok(await browser.evaluate('document.getElementById("layout-changed").checkVisibility()'));
  await browser.click('#take-layout');
  assert.ok(!await browser.evaluate(live));
  assert.ok(await browser.evaluate('document.getElementById("layout-changed").hidden'));
  await browser.only('workbench');
  for (const name of ['constructor', 'toString.json', 'hasOwnProperty', '__proto__', 'x.constructor']) {
    await browser.evaluate(`lab.workbench.take([new File(['5ms end\\n'], ${JSON.stringify(name)})])`);
    await browser.until(`document.getElementById("file").value === ${JSON.stringify(name)}`);
  }
  await browser.evaluate('lab.workbench.open("four_keys.asm")');
  assert.ok(await browser.evaluate('document.querySelectorAll("#offers button").length > 0'), 'the list still works');
  const dropped = name => browser.evaluate(`(() => { const it = new DataTransfer(); it.items.add(new File(['5ms end\\n'], ${JSON.stringify(name)}));
    const events = ['dragover', 'drop'].map(type => new DragEvent(type, { bubbles: true, cancelable: true, dataTransfer: it }));
    for (const event of events) document.body.dispatchEvent(event);
    return events.map(event => event.defaultPrevented); })()`);
  assert.deepEqual(await dropped('dropped.keys'), [true, true], 'the page takes what is dropped');
  await browser.until('document.getElementById("file").value === "dropped.keys"');
  await cutSessions(browser);
}

const MOST_EVENTS = 65_536, LONGEST = 240_000_000; // stamps

// A session that is longer than a key file may be: the page says what its key file has and what it leaves out, and the program takes
// that key file as it is, but none with an event more.
async function cutSessions(browser) {
  const session = (stamps, at) => browser.evaluate(`(() => {
    const { live } = lab, { events, cycle } = live;
    live.events = ${stamps}.map((stamp, n) => ({ stamp, words: n % 2 ? 'release a' : 'press a' }));
    live.cycle = ${at} + 4096;
    document.getElementById('session').click();
    Object.assign(live, { events, cycle });
    return [document.getElementById('judged').textContent, lab.files['session.keys'].trimEnd().split('\\n').length];
  })()`);
  const accepted = change => browser.evaluate(`lab.program.run(['debug', 'us84.toml', 'session.keys', 'one.script'], { 'us84.toml': lab.files['us84.toml'], 'one.script': 'step 1\\n', 'session.keys': (${change})(lab.files['session.keys']) })`);
  const asItIs = 'keys => keys';
  await browser.only('wires');
  let [said, lines] = await session('[4000, 8000, 239990000, 240000000, 240100000]', LONGEST + 5000 * 400);
  assert.equal(said, 'session.keys is in the workbench; it has the first 3 events and 600.0 seconds of this session, since a key file has at most 65,536 events and 600 seconds; the last 2 events and 5.0 seconds are left out');
  assert.equal(lines, 4);
  assert.deepEqual((await accepted(asItIs)).exit, 0, '600 seconds');
  assert.notEqual((await accepted(`keys => keys.replace('${LONGEST} end', '${LONGEST + 1} end')`)).exit, 0, 'no key file is longer');
  [said, lines] = await session(`Array.from({ length: ${MOST_EVENTS + 100} }, (_, n) => 4000 + 3000 * n)`, 4000 + 3000 * (MOST_EVENTS + 100));
  assert.match(said, /it has the first 65536 events and 491\.5 seconds of this session, .*; the last 100 events and 0\.8 seconds are left out$/);
  assert.equal(lines, MOST_EVENTS + 1, 'the events and the end');
  assert.equal((await accepted(asItIs)).exit, 0, '65,536 events');
  assert.notEqual((await accepted(`keys => keys.replace(/(\\d+) end/, '$1 release a\\n$1 end')`)).exit, 0, 'no key file has more events');
  [said, lines] = await session('[4000, 8000]', 400_000);
  assert.deepEqual([said, lines], ['session.keys is in the workbench', 3]);
}

/** A hand-in has the files of the lessons; the teacher's page checks each anew, whatever the hand-in says. */
export async function handIns(browser, folder) {
  await browser.only('lessons');
  await catchSaves(browser);
  await browser.evaluate('lab.lessons.open(0)');
  await browser.put('lesson-file', answerOf('lesson1.asm'));
  await browser.evaluate('lab.lessons.open(3)');
  await browser.put('lesson-file', '12 1C F0 1C\n');
  await browser.click('#hand-in');
  await browser.says('hand-in-told', /Write your name first/);
  await browser.put('hand-in-name', 'Ada Ö.');
  await browser.click('#hand-in');
  await browser.says('hand-in-told', /It has lesson1\.asm, lesson4\.words/);
  const [name, text] = await browser.evaluate(`${last}[1].text().then(text => [${last}[0], text])`), file = join(folder, name), other = join(folder, 'hand_in_other.json');
  writeFileSync(file, text.replace('"by"', '"done": ["lesson4.words"], "by"'));
  writeFileSync(other, 'nothing of the kind');
  await browser.choose('#hand-ins', [file, other]);
  await browser.says('hand-in-told', /^2 checked/);
  const rows = await browser.evaluate('[...document.querySelectorAll("#hand-in-rows tr")].map(row => [...row.children].map(it => it.textContent))');
  assert.deepEqual(rows[0].slice(0, 5), ['Ada Ö.', 'done', '–', '–', 'not yet']);
  assert.match(await browser.evaluate('document.querySelector("#hand-in-rows tr").children[4].title'), /expected port 9E|expected port AA/);
  assert.match(rows[1][1], /is no hand-in/);
}

/** Where nothing can be kept, the page says so; and all that is kept can be forgotten. */
export async function forgetting(browser, url) {
  await browser.evaluate(`globalThis.realSet = Storage.prototype.setItem; Storage.prototype.setItem = () => { throw new Error('the quota is exceeded'); }; 0`);
  await browser.evaluate('lab.workbench.take([new File(["x"], "unkept.asm")])');
  await browser.says('kept', /Your files aren't kept \(the quota is exceeded\)\. Save all/);
  assert.ok(await browser.evaluate('(() => { const event = new Event("beforeunload", { cancelable: true }); dispatchEvent(event); return event.defaultPrevented; })()'), 'it asks before it is left');
  await browser.evaluate('Storage.prototype.setItem = realSet; lab.workbench.take([new File(["y"], "kept.asm")]); 0');
  await browser.until('document.getElementById("kept").hidden');
  assert.equal(await browser.evaluate('localStorage.getItem("kbd48 lab/file/unkept.asm")'), 'x', 'what waited is kept too');
  await browser.evaluate('localStorage.clear()');
  await browser.go(`${url}#forgetting`);
  await browser.ready();
  await browser.only('workbench');
  await browser.click('#new-file');
  await browser.until('localStorage.length > 0');
  await browser.click('#forget');
  await browser.until(isAsking);
  await browser.evaluate('globalThis.old = true; document.getElementById("ask-yes").click()');
  await browser.until('!globalThis.old');
  await browser.ready();
  assert.ok(await browser.evaluate('!("own1.asm" in lab.files) && localStorage.length === 0'));
}
