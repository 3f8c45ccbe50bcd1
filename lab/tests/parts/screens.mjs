// Everybody's screen, and the first minute: small and large screens, fingers, forced colours, a dark page, little motion, screen
// readers; where keys go; the tour and the words of the log.
import assert from 'node:assert/strict';
import { contrast } from './look.mjs';
import { PANES } from './look.mjs';

const SMALL = [1366, 625]; // pixels: a screen of 1366 x 768 without the browser's own bars
// Fonts of other systems are wider or narrower than those of this one.
const FONTS = [['sans-serif', 'normal'], ['serif', 'normal'], ['monospace', 'normal'], ['sans-serif', '0.1em'], ['serif', '-0.03em']];
const NARROW = [360, 800];
const presses = browser => browser.evaluate('lab.live.events.filter(it => it.words.startsWith("press ")).length');
const selfTested = browser => browser.until('lab.live.stamp > 200000');

/** On a small laptop the wires are in sight below the keyboard when the page is opened, whatever font there is; nothing lies over them
    or is pushed out. */
export async function firstWindow(browser, url) {
  await browser.size(SMALL, 1, false);
  await browser.go(`${url}#first`);
  await browser.ready();
  assert.deepEqual(await browser.evaluate('[scrollY, ...["keyboard", "wires", "processor", "workbench", "lessons"].map(id => document.getElementById(id).checkVisibility())]'), [0, true, true, false, false, false]);
  for (const [family, spacing] of FONTS) {
    await browser.evaluate(`Object.assign(document.documentElement.style, { fontFamily: '${family}', letterSpacing: '${spacing}' }); 0`);
    const named = `with ${family}, ${spacing}`, [top, bottom] = await browser.evaluate('(it => [it.top, it.bottom])(document.getElementById("wave").getBoundingClientRect())');
    assert.ok(top > 0 && bottom <= SMALL[1], `the wires are from ${top} to ${bottom} ${named}`);
    const out = await browser.evaluate('[...document.querySelectorAll("header button, #keyboard .head :is(button, .button, select, label)")].filter(it => it.getBoundingClientRect().right > innerWidth || it.scrollWidth > it.clientWidth + 1).map(it => it.id || it.textContent)');
    assert.deepEqual(out, [], `all controls are whole ${named}`);
    // A pane that was out of sight is drawn with the browser's next picture, and only then a point of it is one of the pane's parts.
    await browser.until('(it => document.elementFromPoint(it.left + it.width / 2, it.top + it.height / 2)?.id === "wave")(document.getElementById("wave").getBoundingClientRect())');
  }
  await browser.evaluate('document.documentElement.removeAttribute("style")');
  await browser.size(null);
}

const focusOn = async (browser, what) => {
  await browser.evaluate(`${what}; document.dispatchEvent(new FocusEvent('focusin'))`);
};
const focusNothing = browser => focusOn(browser, 'document.activeElement.blur()');
const hasFocus = browser => browser.evaluate('document.activeElement.id');
const pressed = (browser, name) => browser.evaluate(`lab.live.events.filter(it => it.words === 'press ${name}').length`);

/** It is said where keys go; a click on a button of the PC's leaves the focus; what nobody else takes is typed. */
export async function whereKeysGo(browser) {
  await selfTested(browser);
  await focusOn(browser, 'scrollTo(0, 0); document.getElementById("board").focus()');
  await browser.says('keys-go', /^your keys go to the keyboard below$/);
  const asked = () => browser.evaluate('lab.live.bytes.filter(it => it.sender === "host" && it.byte === 0xEE).length');
  const before = await asked(), echo = await browser.evaluate('(it => { it.id = "echo"; return it.textContent; })([...document.querySelectorAll("#commands button")].find(it => it.textContent.startsWith("EE")))');
  assert.match(echo, /echo/);
  await browser.click('#echo');
  await browser.until('document.activeElement.id === "board"');
  await browser.stroke('Space');
  await browser.says('screen', / ▁$/);
  assert.equal(await asked(), before + 1, 'a space isn\'t another EE');
  await unfocused(browser);
  await controls(browser);
  await farAway(browser);
}

const SHIFT = { key: 'Shift' }, CAPITAL = { modifiers: 8 };

// While nothing has the focus, keys that type are typed; Shift leaves the focus, because Shift and Tab go back.
async function unfocused(browser) {
  await focusNothing(browser);
  await browser.says('keys-go', /^what you type goes to the keyboard below$/);
  await browser.down('ShiftLeft', SHIFT);
  await browser.until('document.querySelector("[data-key=lshift]").classList.contains("down")');
  assert.notEqual(await hasFocus(browser), 'board');
  await browser.down('KeyQ', { ...CAPITAL, key: 'Q' });
  await browser.up('KeyQ', { ...CAPITAL, key: 'Q' });
  await browser.up('ShiftLeft', SHIFT);
  await browser.says('screen', /Q+▁$/);
  assert.equal(await hasFocus(browser), 'board');
  await browser.until('!document.querySelector("#board .down")');
  await focusNothing(browser);
  await browser.down('ShiftRight', SHIFT);
  await browser.up('ShiftRight', SHIFT);
  await browser.until('lab.live.events.some(it => it.words === "release rshift")');
  assert.notEqual(await hasFocus(browser), 'board', 'Shift alone takes no focus');
  for (const [code, name, form] of [['Enter', 'enter', /Q+\n+▁$/], ['Backspace', 'backspace', /Q+▁$/], ['Escape', 'esc', /▁$/], ['CapsLock', 'caps', /▁$/], ['CapsLock', 'caps', /▁$/]]) {
    await focusNothing(browser);
    const many = await pressed(browser, name);
    await browser.stroke(code, 30, { key: code });
    await browser.until(`lab.live.events.filter(it => it.words === 'release ${name}').length > ${many}`);
    await browser.says('screen', form);
    assert.equal(await hasFocus(browser), 'board', code);
  }
  // What scrolls the page, or is a command of the browser's, stays the browser's.
  await focusNothing(browser);
  const many = await presses(browser), others = [['PageDown', {}], ['ArrowDown', {}], ['Home', {}], ['Tab', {}], ['F5', {}], ['r', { ctrlKey: true }], ['d', { altKey: true }], ['l', { metaKey: true }]];
  const kept = await browser.evaluate(`${JSON.stringify(others)}.map(([key, more]) => { const event = new KeyboardEvent('keydown', { key, code: key.length > 1 ? key : 'Key' + key.toUpperCase(), bubbles: true, cancelable: true, ...more }); document.body.dispatchEvent(event); return event.defaultPrevented; })`);
  assert.deepEqual([kept.includes(true), await presses(browser)], [false, many]);
}

// A button keeps the space bar and Enter, and letters are typed; a field, a list and a question keep all keys.
async function controls(browser) {
  await focusOn(browser, 'document.getElementById("zoom-in").focus()');
  await browser.says('keys-go', /^Space and Enter go to: Zoom in; letters go to the keyboard below$/);
  const send = (id, key, code) => browser.evaluate(`(it => { const event = new KeyboardEvent('keydown', { key: '${key}', code: '${code}', bubbles: true, cancelable: true, shiftKey: ${key === 'Shift' || key === 'W'} }); it.dispatchEvent(event); return event.defaultPrevented; })(document.getElementById('${id}'))`);
  const many = await presses(browser);
  for (const [key, code] of [[' ', 'Space'], ['Enter', 'Enter'], ['Shift', 'ShiftLeft']]) assert.equal(await send('zoom-in', key, code), false, key);
  assert.equal(await presses(browser), many);
  assert.equal(await send('zoom-in', 'W', 'KeyW'), true);
  await browser.evaluate('for (const code of ["KeyW", "ShiftLeft"]) document.activeElement.dispatchEvent(new KeyboardEvent("keyup", { code, bubbles: true, cancelable: true }))');
  await browser.says('screen', /W+▁$/);
  assert.equal(await hasFocus(browser), 'board');
  await focusOn(browser, 'document.getElementById("any-byte").focus()');
  await browser.says('keys-go', /^your keys go to: any byte/);
  const typed = await presses(browser);
  for (const id of ['any-byte', 'speed']) {
    await focusOn(browser, `document.getElementById("${id}").focus()`);
    assert.equal(await send(id, 'e', 'KeyE'), false, id);
  }
  assert.equal(await presses(browser), typed, 'a field keeps its letters');
}

// A page that is shown a pane scrolls to it, which takes a moment.
async function untilAtRest(browser) {
  for (let was = null, at = await browser.evaluate('scrollY'); was !== at; at = await browser.evaluate('scrollY')) {
    was = at;
    await browser.wait(300);
  }
}

// If the keyboard has the focus and is out of sight, a corner of the window says so.
async function farAway(browser) {
  const isSaid = 'document.getElementById("keys-go-far").checkVisibility()';
  await focusOn(browser, 'document.getElementById("board").focus(); scrollTo(0, 0)');
  await browser.until(`!(${isSaid})`);
  await browser.evaluate('for (const name of ["workbench", "lessons"]) lab.show(name, true); 0');
  await browser.until(`${isSaid} && document.activeElement.id === "board"`);
  await untilAtRest(browser);
  assert.match(await browser.textOf('keys-go-far'), /go to the keyboard, which is out of sight/);
  await focusOn(browser, 'document.getElementById("lesson-file").focus()');
  await browser.until(`!(${isSaid})`);
  await focusOn(browser, 'document.getElementById("board").focus()');
  await browser.until(`!(${isSaid})`);
  await browser.evaluate('for (const name of ["workbench", "lessons"]) lab.show(name, false); scrollTo(0, 0)');
}

/** A finger that moves the page types nothing; one that taps does. */
export async function fingers(browser) {
  await browser.size(NARROW, 2, true);
  await browser.only('keyboard');
  await selfTested(browser);
  const at = await browser.place('[data-key=g]'), many = await presses(browser);
  await browser.touch('down', at);
  for (let by = 12; by <= 96; by += 12) await browser.touch('drag', { x: at.x - by, y: at.y - by / 2 });
  await browser.touch('up', {});
  await browser.wait(400);
  assert.equal(await presses(browser), many, 'the page was moved, and nothing was typed');
  await browser.tap('[data-key=g]');
  await browser.until(`lab.live.events.filter(it => it.words.startsWith("press ")).length === ${many + 1}`);
  await browser.touch('down', await browser.place('[data-key=g]'));
  await browser.says('screen', /ggg+▁$/);
  await browser.touch('up', {});
  await browser.until('!document.querySelector("#board .down")');
  await browser.size(null);
}

/** Keys are buttons with a name and a state; what is typed is said after a while. */
export async function readers(browser) {
  await browser.only('keyboard');
  await selfTested(browser);
  const keys = await browser.evaluate('[...document.querySelectorAll("#board > div")].map(it => [it.getAttribute("role"), it.getAttribute("aria-label"), it.getAttribute("aria-pressed")])');
  assert.ok(keys.every(([role, label, pressed]) => role === 'button' && label && pressed === 'false'), 'each key has a role, a name and a state');
  assert.equal(new Set(keys.map(([, label]) => label)).size, keys.length, 'no two keys have one name');
  await browser.evaluate('lab.keys.hold("lshift", true, "test")');
  await browser.until('document.querySelector("[data-key=lshift]").getAttribute("aria-pressed") === "true"');
  await browser.evaluate('lab.keys.hold("lshift", false, "test"); document.getElementById("heard").textContent = ""; lab.pc.takeUnsaid(); lab.pressed = performance.now(); for (const name of ["h", "i"]) { lab.keys.hold(name, true, "test"); lab.keys.hold(name, false, "test"); }');
  await browser.says('heard', /^hi$/);
  // A screen reader clicks without a pointer.
  const many = await presses(browser);
  await browser.evaluate('document.querySelector("[data-key=y]").click()');
  await browser.until(`lab.live.events.filter(it => it.words === "release y").length > 0 && lab.live.events.filter(it => it.words.startsWith("press ")).length === ${many + 1}`);
}

/** The tour goes through five steps, each at something that is in sight; the words of the log are explained. */
export async function tour(browser) {
  await browser.only('keyboard');
  await browser.click('#tour-begin');
  const seen = [];
  for (let step = 1; step <= 5; step++) {
    await browser.says('tour-text', new RegExp(`^${step} of 5\\. `));
    seen.push(await browser.evaluate('(it => it && it.checkVisibility() && it.getBoundingClientRect().top < innerHeight && it.id)(document.querySelector(".toured"))'));
    await browser.click('#tour-next');
  }
  assert.deepEqual(seen, ['board', 'wave', 'speed', 'commands', 'lesson-title']);
  assert.ok(await browser.evaluate('document.getElementById("tour").hidden && !document.querySelector(".toured")'));
  await browser.only('wires');
  await browser.evaluate('document.querySelector("#glossary summary").click()');
  const words = await browser.evaluate('[...document.querySelectorAll("#glossary dt")].map(it => it.textContent)');
  for (const word of ['stamp', 'word 1E61', 'port 1E', 'tick']) assert.ok(words.includes(word), word);
  await browser.evaluate('document.querySelector("#glossary summary").click()');
}

/** At a slow speed the self-test passes at full speed, and a key that waits for the scan is said to wait. */
export async function slowly(browser) {
  await browser.only('keyboard');
  await browser.put('speed', '0.001');
  await browser.click('#restart');
  await browser.until('lab.live.bytes.some(it => it.byte === 0xAA)');
  await browser.until('lab.live.stamp >= 135168');
  await browser.evaluate('lab.keys.hold("a", true, "test")');
  await browser.until('!document.getElementById("waiting").hidden');
  await browser.says('waiting', /waits for the scan: the keyboard reads its keys once in 5\.12 ms, which are 5\.12 s at this speed/);
  await browser.put('speed', '1');
  await browser.until('document.getElementById("waiting").hidden && lab.live.bytes.some(it => it.byte === 0x1C)');
  await browser.evaluate('lab.keys.hold("a", false, "test")');
}

/** With forced colours keys have edges, and one that is down differs; with little motion wires are drawn now and then. */
export async function forced(browser, shot) {
  assert.deepEqual(await browser.evaluate('["(forced-colors: active)", "(prefers-reduced-motion: reduce)"].map(it => matchMedia(it).matches)'), [true, true]);
  await selfTested(browser);
  const edges = await browser.evaluate('[...document.querySelectorAll("#board > div")].map(it => getComputedStyle(it)).every(it => Number.parseFloat(it.borderTopWidth) >= 1 && it.borderTopColor !== it.backgroundColor)');
  assert.ok(edges, 'each key has an edge');
  await browser.evaluate('lab.keys.hold("k", true, "test")');
  await browser.until('document.querySelector("[data-key=k]").classList.contains("down")');
  const looks = await browser.evaluate('["k", "l"].map(name => getComputedStyle(document.querySelector(`[data-key=${name}]`)).backgroundColor)');
  assert.notEqual(looks[0], looks[1], 'a key that is down differs');
  await shot('forced_colours');
  const began = await browser.evaluate('globalThis.drawings = 0; globalThis.drawn = lab.wires.draw.bind(lab.wires); lab.wires.draw = () => { drawings++; drawn(); }; performance.now()');
  const strokes = 'for (const name of ["q", "w"]) { lab.keys.hold(name, true, "test"); setTimeout(() => lab.keys.hold(name, false, "test"), 60); }';
  for (let count = 0; count < 10; count++) {
    await browser.evaluate(`${strokes} 0`);
    await browser.wait(300);
  }
  const [drawings, now] = await browser.evaluate('[drawings, performance.now()]'), seconds = (now - began) / 1000;
  assert.ok(drawings <= seconds + 2, `${drawings} pictures of the wires in ${seconds.toFixed(1)} seconds`);
}

/** A dark page has enough contrast in each pane. */
export async function dark(browser, shot) {
  assert.ok(await browser.evaluate('matchMedia("(prefers-color-scheme: dark)").matches'));
  assert.match(await browser.evaluate('getComputedStyle(document.documentElement).backgroundColor'), /^rgb\(2\d, 2\d, \d+\)$/);
  for (const pane of PANES) {
    await browser.only(pane);
    await browser.wait(100);
    await contrast(browser);
    await shot(`dark_${pane}`);
  }
}
