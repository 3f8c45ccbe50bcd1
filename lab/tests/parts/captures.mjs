// Captures of real wires: opened, dropped and refused; their marks, their words, and a right keyboard beside them.
import assert from 'node:assert/strict';
import { closeSync, ftruncateSync, openSync, readFileSync, writeFileSync } from 'node:fs';
import { join } from 'node:path';

const PARITY = 'The keyboard sends 33, and the parity bit doesn\'t fit the other bits.';
const TOO_LONG = 257 << 20, MANY_ROWS = 3_000_000;
const NARROW = [360, 800];
const TICK_OF_CYCLES = 2048;

const stored = (examples, name) => readFileSync(join(examples, 'captures', name), 'utf8');
const captured = (browser, what) => browser.evaluate(`lab.wires.capture.captured?.${what}`);
const bytesOf = (browser, wave) => browser.evaluate(`${wave}.shown.bytes.map(it => it.byte.toString(16).toUpperCase().padStart(2, '0') + (it.fault ? ' ' + it.fault : '')).join()`);

/** Opens a file, and waits until it is read. */
async function openFile(browser, path, told) {
  await browser.evaluate('document.getElementById("capture-told").textContent = ""; 0');
  await browser.choose('#open-capture', [path]);
  await browser.says('capture-told', told);
}

/** What is found is what the program prints; each mark has its sentence, by buttons, by the keyboard and by a click on it. */
export async function found(browser, shot, examples) {
  await browser.only('wires');
  await openFile(browser, join(examples, 'captures/parity.csv'), /^Channel 1 is probably the clock: it has 60 pulses of 20 to 55 µs\. Channel 0 is probably data: it changes 30 times\.$/);
  assert.equal(await browser.textOf('found'), stored(examples, 'parity.text'));
  assert.equal(await browser.textOf('capture-head'), 'The capture parity.csv');
  assert.equal(await browser.valueOf('shown'), 'parity.csv');
  assert.equal(await bytesOf(browser, 'lab.wires.wave'), '12,33 wrong parity,F0,33,F0,12');
  assert.deepEqual(await browser.evaluate('["bytes", "pulled"].map(id => document.getElementById(id).checkVisibility())'), [false, false]);
  await browser.says('fault-text', /^1 place is marked\.$/);
  await browser.says('captured-screen', /^▁$/);
  await shot('capture');
  // The mark is in the picture, and has its sentence.
  const [x, left, wide] = await browser.evaluate('[lab.wires.wave.places.get(lab.wires.capture.captured.found.marks[0].begin), document.getElementById("wave").getBoundingClientRect().left, document.getElementById("wave").clientWidth]');
  assert.ok(x > 0 && x < wide, `the mark is at ${x} of ${wide}`);
  const place = { x: left + x + 2, y: (await browser.place('#wave')).y };
  await browser.mouse('down', place);
  await browser.mouse('up', place);
  await browser.says('fault-text', new RegExp(`^1 of 1, at 47\\.083 ms: ${PARITY.replace(/[.']/g, '\\$&')}$`));
  await openFile(browser, join(examples, 'captures/slow.csv'), /^Channel 0 is probably the clock/);
  await browser.says('fault-text', /^19 places are marked\.$/);
  await browser.evaluate('document.getElementById("fault-next").focus()');
  await browser.write('\n');
  await browser.says('fault-text', /^1 of 19, at 47\.083 ms: The clock is low for 52\.8 µs\. It must be 30 to 50 µs\.$/);
  for (const [button, at] of [['before', 19], ['next', 1], ['next', 2]]) {
    await browser.click(`#fault-${button}`);
    await browser.says('fault-text', new RegExp(`^${at} of 19, `));
  }
  await browser.says('capture-at', /^\d+\.\d{3} to \d+\.\d{3} ms$/);
}

/** The signals can be exchanged, and chosen; a capture without a fault has its words on the screen. */
export async function signals(browser, examples) {
  await openFile(browser, join(examples, 'captures/right.vcd'), /^D0 is probably the clock: it has 60 pulses/);
  await browser.says('captured-screen', /^H▁$/);
  await browser.says('fault-text', /^Nothing is marked\.$/);
  assert.ok(await browser.evaluate('document.getElementById("fault-next").disabled'));
  assert.equal(await browser.textOf('found'), stored(examples, 'right.text'));
  await browser.click('#capture-exchange');
  await browser.until('lab.wires.capture.captured?.clock === 1');
  assert.ok(!(await browser.textOf('found')).includes('keyboard 33\n'), 'data is no clock');
  assert.deepEqual(await browser.evaluate('["capture-clock", "capture-data"].map(id => document.getElementById(id).selectedOptions[0].text)'), ['D1', 'D0']);
  await browser.put('capture-clock', '0');
  await browser.until('lab.wires.capture.captured?.clock === 0');
  assert.equal(await captured(browser, 'data'), 1, 'the two are never one signal');
  assert.equal(await browser.textOf('found'), stored(examples, 'right.text'));
}

/** The same strokes on this page's keyboard, in one scale of time. */
export async function beside(browser, shot) {
  await browser.click('#hold-against');
  await browser.says('held', /^2 strokes on us84\.toml; captured\.keys has them\.$/);
  assert.equal(await bytesOf(browser, 'lab.wires.capture.right.beside'), '12,33,F0,33,F0,12');
  assert.match(await browser.evaluate('lab.files["captured.keys"]'), /^163840 press lshift\n182273 press h\n202753 release h\n223232 release lshift\n263232 end\n$/);
  assert.match(await browser.evaluate('lab.program.run(["run", "us84.toml", "captured.keys"], lab.files).text'), /word 2348/);
  const alike = async () => assert.ok(await browser.evaluate(`(() => {
    const { wires: { wave, capture: { right: { beside } } } } = lab, at = it => [it.zoom, it.right, it.back, it.shown.edges.length].join();
    return at(wave) === at(beside) && [...wave.places].join() === [...beside.places].join();
  })()`), 'both pictures have the same stretches');
  await alike();
  const before = await browser.evaluate('lab.wires.wave.zoom');
  await browser.click('#zoom-in');
  assert.equal(await browser.evaluate('lab.wires.capture.right.beside.zoom'), 2 * before);
  await alike();
  await browser.evaluate('document.getElementById("beside-wave").focus()');
  await browser.stroke('ArrowLeft', 5);
  await alike();
  // The first byte of both is at one place, and no other is more than a tick away.
  const late = await browser.evaluate('lab.wires.capture.right.beside.shown.bytes.map((it, at) => it.begin - lab.wires.wave.shown.bytes[at].begin)');
  assert.ok(late[0] === 0 && late.every(it => Math.abs(it) <= TICK_OF_CYCLES), late.join());
  await shot('beside');
  await browser.size(NARROW, 2, true);
  assert.ok(await browser.evaluate('document.documentElement.scrollWidth') <= NARROW[0], 'nothing is wider than a small screen');
  await shot('capture_narrow');
  await browser.size(null);
  // Another keyboard: the capture stays, and what was beside it goes.
  await browser.put('layout', 'four_keys.toml');
  await browser.until('document.getElementById("beside-wave").hidden');
  assert.ok(await browser.evaluate('document.getElementById("capture").checkVisibility()'));
  await browser.click('#hold-against');
  await browser.says('held', /^No stroke of a key of four_keys\.toml is in it\. four_keys\.toml has no key for 12, 33\.$/);
  await browser.put('layout', 'us84.toml');
}

/** What isn't a capture is refused by name, and so is one that is too long; what comes before a fault of a dump is shown. */
export async function refused(browser, folder) {
  const file = (name, bytes) => {
    writeFileSync(join(folder, name), bytes);
    return join(folder, name);
  };
  const head = '$timescale 1 us $end $var wire 1 c clock $end $var wire 1 d data $end $enddefinitions $end\n';
  await openFile(browser, file('none.vcd', 'a keyboard\n'), /^line 1: a word isn't what a value change dump has at this place/);
  await openFile(browser, file('level.csv', 'Time [s],A,B\n0.0,1,1\n0.5,2,1\n'), /^line 3: '2' is no level, which is 0 or 1$/);
  await openFile(browser, file('still.csv', 'Time [s],A,B\n0.0,1,1\n0.5,1,1\n'), /^no channel moves, so none is the clock$/);
  await openFile(browser, file('rate.csv', '; sigrok\nlogic,logic\n1,1\n0,1\n'), /^no comment says the sample rate/);
  assert.ok(await browser.evaluate('document.getElementById("capture-body").hidden'));
  await openFile(browser, file('session.sr', Buffer.from('504B030414000000', 'hex')), /^it is a ZIP archive; if it is a session of sigrok, `sigrok-cli -i session\.sr -O vcd` makes a dump of it$/);
  await openFile(browser, file('typed.keys', '5ms end\n'), /^its name doesn't end in \.vcd or \.csv$/);
  assert.ok(await browser.evaluate('!lab.wires.capture.has("typed.keys")'));
  const long = openSync(join(folder, 'long.csv'), 'w');
  ftruncateSync(long, TOO_LONG);
  closeSync(long);
  await openFile(browser, join(folder, 'long.csv'), /^it has 257 MB; this page reads at most 256 MB/);
  assert.equal(await browser.textOf('capture-head'), 'The capture long.csv');
  assert.equal(await browser.valueOf('shown'), 'what I type');
  await openFile(browser, file('unknown.vcd', `${head}#0 1c 1d\n#100 0c\n#140 1c\n#300 xd\n`), /^The signals have the names clock and data\. line 5: a wire has a level that is neither 0 nor 1; what was found before it is shown\.$/);
  await browser.says('found', /^100\.000 edge without a start bit\n/);
  await browser.says('fault-text', /^1 place is marked\.$/);
}

/** A capture is dropped on the pane; other files go where they went. A file of the page may be shown too. */
export async function dropped(browser, examples) {
  const drop = (name, text) => browser.evaluate(`(() => {
    const it = new DataTransfer();
    it.items.add(new File([${JSON.stringify(text)}], ${JSON.stringify(name)}));
    document.getElementById('wave').dispatchEvent(new DragEvent('drop', { bubbles: true, cancelable: true, dataTransfer: it }));
  })()`);
  await drop('dropped.csv', stored(examples, 'slow.csv'));
  await browser.says('capture-head', /^The capture dropped\.csv$/);
  await browser.says('fault-text', /^19 places are marked\.$/);
  await drop('beside.keys', '5ms end\n');
  await browser.until('document.getElementById("file").value === "beside.keys"');
  await browser.only('wires');
  await browser.put('shown', 'missing.vcd');
  await browser.says('fault-text', /^2 places are marked\.$/);
  await browser.put('shown', 'what I type');
  await browser.until('document.getElementById("capture").hidden && document.getElementById("bytes").checkVisibility()');
}

/** A large capture is read beside the page, which goes on; reading it can be stopped. */
export async function large(browser, folder) {
  const rows = Buffer.alloc(4 * MANY_ROWS, '1,1\n');
  // A clock of 40 us low and 40 us high, at one sample a microsecond.
  for (let row = 0; row < MANY_ROWS; row++) if (row % 80 < 40) rows[4 * row] = 0x30;
  for (let row = 0; row < MANY_ROWS; row++) if (row % 880 >= 40 && row % 880 < 760) rows[4 * row + 2] = 0x30;
  const path = join(folder, 'large.csv');
  writeFileSync(path, Buffer.concat([Buffer.from('; Channels (2/2): D0, D1\n; Samplerate: 1 MHz\n'), rows]));
  await browser.evaluate('document.getElementById("capture-told").textContent = ""; 0');
  const stamp = await browser.evaluate('lab.live.stamp');
  await browser.choose('#open-capture', [path]);
  await browser.until('!document.getElementById("runs").hidden');
  await browser.evaluate('document.getElementById("stop-run").click()');
  await browser.says('capture-told', /^It was stopped\.$/);
  await browser.evaluate('lab.wires.capture.open("large.csv")');
  await browser.until(`lab.live.stamp > ${stamp} + 4000`);
  await browser.until('lab.wires.capture.captured');
  await browser.says('capture-told', /^D0 is probably the clock: it has 37500 pulses of 20 to 55 µs\. D1 is probably data: /);
  assert.ok(await captured(browser, 'found.bytes.length') > 3000);
  await browser.click('#fault-next');
  await browser.put('shown', 'what I type');
}
