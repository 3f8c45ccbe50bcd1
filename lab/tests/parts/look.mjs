// How the page looks and behaves whatever it shows: contrast, focus, small screens, fingers, its policy, its load, a trap.
import assert from 'node:assert/strict';
import { drawnDown } from './keyboard.mjs';

const LEAST_CONTRAST = 4.5; // WCAG 2, AA
// Per cent of one processor: the goal, and what fails. Machines differ, and this must not fail on a slow or busy one: beside four
// provers a browser takes up to twice what it takes alone. A page that never rests takes a whole processor.
const GOAL = 15, TOO_MUCH = 50;
const HELD = 70, BETWEEN_STROKES = 167, MEASURED = 5000; // ms
// Pictures for each stroke, which don't depend on the machine. A picture is most of what a stroke costs. Somebody who types fast
// has one; if other work delays a stroke, the key before it may be drawn up first, in one more.
const MOST_PICTURES = 1.4;
const LEAST_HEIGHT = 90; // pixels of a text or a picture
export const PANES = ['keyboard', 'wires', 'processor', 'workbench', 'lessons'];
const PHONES = { narrow: [360, 800, 2], iphone: [390, 844, 3], android: [412, 915, 2.625], lying: [844, 390, 3] };

const MOST_CLICKS = 3, SOON = 3000; // ms

// Clicks a pane's button; once more if a late scroll, of what was done before, takes the page away again.
async function goTo(browser, pane, isThere) {
  for (let clicks = 1; ; clicks++) {
    await browser.evaluate('scrollTo(0, 0)');
    await browser.click(`#panes [data-pane=${pane}]`);
    if (clicks === MOST_CLICKS) return browser.until(isThere);
    for (const end = Date.now() + SOON; Date.now() < end; await browser.wait(25)) if (await browser.evaluate(isThere)) return undefined;
  }
}

/** The buttons at the top show a pane and go to it, also if it is shown; each pane's own button hides it. */
export async function panes(browser) {
  const look = pane => `[document.querySelector('#panes [data-pane=${pane}]').getAttribute('aria-pressed') === 'true', document.getElementById('${pane}').checkVisibility()].join()`;
  for (const pane of PANES) {
    const was = (await browser.evaluate(look(pane))).startsWith('true');
    // Its button shows it, and it comes into sight.
    const isThere = `${look(pane)} === 'true,true' && (top => top >= -1 && top < innerHeight)(document.getElementById('${pane}').getBoundingClientRect().top)`;
    for (let times = 0; times < 2; times++) await goTo(browser, pane, isThere);
    await browser.click(`#hide-${pane}`);
    await browser.until(`${look(pane)} === 'false,false'`);
    assert.equal(await browser.evaluate('document.activeElement.dataset.pane'), pane, 'the focus is on the button that shows it again');
    await browser.evaluate(`lab.show('${pane}', ${was})`);
  }
  await browser.evaluate('scrollTo(0, 0)');
}

/** Each visible text has enough contrast with what lies under it. */
export async function contrast(browser) {
  const poor = await browser.evaluate(`(() => {
    const luminance = rgb => rgb.map(c => (c /= 255) <= 0.03928 ? c / 12.92 : ((c + 0.055) / 1.055) ** 2.4).reduce((sum, c, n) => sum + c * [0.2126, 0.7152, 0.0722][n], 0);
    const colour = text => text.match(/[\\d.]+/g).map(Number);
    const under = it => { for (; it; it = it.parentElement) { const c = colour(getComputedStyle(it).backgroundColor); if (c.length < 4 || c[3] > 0) return c.slice(0, 3); } return [255, 255, 255]; };
    const poor = [], walk = document.createTreeWalker(document.body, NodeFilter.SHOW_TEXT);
    while (walk.nextNode()) {
      const it = walk.currentNode.parentElement;
      if (!walk.currentNode.data.trim() || !it.checkVisibility() || it.closest('script, button:disabled')) continue;
      const box = it.closest('.screen-box')?.querySelector('pre') ?? it;
      const [a, b] = [luminance(colour(getComputedStyle(it).color).slice(0, 3)), luminance(under(box))].sort((x, y) => y - x);
      if ((a + 0.05) / (b + 0.05) < ${LEAST_CONTRAST}) poor.push(it.textContent.trim().slice(0, 40));
    }
    return poor;
  })()`);
  assert.deepEqual(poor, [], 'contrast');
}

/** Each control of each pane is come to by Tab alone, in the order of the page, and shows that it has the focus. */
export async function focus(browser) {
  let many = 0;
  for (const pane of PANES) many += await focusOf(browser, pane);
  return many;
}

/** The same of one pane. How many controls it has. */
export async function focusOf(browser, pane) {
  await browser.only(pane);
  await browser.evaluate('document.querySelector("#panes button").focus()');
  const wanted = await browser.evaluate(`[...document.querySelectorAll('button, select, input, textarea, [tabindex="0"], summary')].filter(it => it.checkVisibility() && !it.disabled).length`);
  const seen = new Set(), dull = [];
  for (let count = 0; count < wanted + 5; count++) {
    if (await browser.evaluate('document.activeElement.id') === 'board') {
      for (let tries = 0; tries < 10 && !await browser.evaluate('lab.keys.hasLeft'); tries++) for (let n = 0; n < 2; n++) await browser.stroke('Escape', 5);
    }
    const now = await browser.evaluate(`(() => {
      const it = document.activeElement, box = it.closest('.button') ?? it, style = getComputedStyle(box);
      it.dataset.n ??= String(document.querySelectorAll('[data-n]').length);
      return { n: it.dataset.n, name: it.id || it.textContent.slice(0, 30), dull: document.hasFocus() && (style.outlineStyle === 'none' || Number.parseFloat(style.outlineWidth) < 2), body: it === document.body };
    })()`);
    if (!now.body) seen.add(now.n);
    // The first got the focus from a script, of which browsers show nothing; nor does a window that isn't the active one.
    if (now.dull && !now.body && count > 0) dull.push(now.name);
    if (seen.size === wanted) break;
    await browser.stroke('Tab', 2);
  }
  assert.deepEqual(dull, [], 'the focus is seen');
  assert.equal(seen.size, wanted, `Tab comes to all controls of ${pane}`);
  return seen.size;
}

/** On small screens nothing is wider than the screen, and fingers type: Shift sticks until the next key is let go. */
export async function phones(browser, shot) {
  for (const [name, [width, height, scale]] of Object.entries(PHONES)) {
    await browser.size([width, height], scale, true);
    for (const pane of PANES) {
      await browser.only(pane);
      const wide = await browser.evaluate('document.documentElement.scrollWidth');
      assert.ok(wide <= width, `${pane} is ${wide} pixels wide on ${name}`);
      const low = await browser.evaluate(`[...document.querySelectorAll('pre, textarea, canvas, #code')].filter(it => it.checkVisibility() && it.clientHeight < ${LEAST_HEIGHT}).map(it => it.id)`);
      assert.deepEqual(low, [], `${pane} on ${name}: nothing is squeezed`);
      await shot(`${name}_${pane}`);
    }
    await browser.only('keyboard');
    await browser.click('#restart');
    await browser.until('lab.live.stamp > 200000');
    for (const key of ['lshift', 't', 'o', 'kp5']) await browser.tap(`[data-key=${key}]`);
    await browser.says('screen', /^T+o+5*▁$/);
    await drawnDown(browser, '');
  }
  await browser.size(null);
}

/** The policy allows this page's own script and style by their sums, the modules, and nothing else. */
export async function policy(browser) {
  const said = await browser.evaluate('document.querySelector("meta[http-equiv=Content-Security-Policy]").content');
  assert.match(said, /^default-src 'none'; script-src 'sha256-[^' ]+' 'wasm-unsafe-eval'; style-src 'sha256-[^' ]+'; img-src data:; worker-src blob:; base-uri 'none'; form-action 'none'$/);
  assert.deepEqual(await browser.evaluate('performance.getEntriesByType("resource").map(it => it.name).filter(name => !/^(data|blob):/.test(name))'), [], 'nothing is loaded');
  // What the policy refuses, the browser does too: a script and a request of somebody else's.
  const before = browser.seen.length;
  const refused = await browser.evaluate(`(async () => {
    const script = document.createElement('script');
    script.textContent = 'globalThis.strange = true';
    document.body.append(script);
    const reached = await fetch('https://example.invalid/').then(() => true, () => false);
    return [globalThis.strange === undefined, !reached];
  })()`);
  assert.deepEqual(refused, [true, true]);
  await browser.wait(200);
  const said2 = browser.seen.splice(before);
  assert.ok(said2.length > 0 && said2.every(line => /Content.Security.Policy/i.test(line)), said2.join('\n'));
}

/** All panes are open, and one of them is in sight. */
async function arrange(browser, pane) {
  for (const name of PANES) await browser.evaluate(`lab.show(${JSON.stringify(name)}, true)`);
  await browser.evaluate(`document.getElementById("board").focus(); document.getElementById("${pane}").scrollIntoView()`);
  await browser.wait(1500);
}

/** The part of one processor that the browser takes, with all its processes. */
async function load(browser) {
  const before = browser.processorSeconds(), began = Date.now();
  if (before === null) return null;
  await browser.wait(MEASURED);
  return 100 * (browser.processorSeconds() - before) / ((Date.now() - began) / 1000);
}

/** The least load of up to ten measures. Other work on the machine only adds to one; and Firefox draws more in the first half
    minute of what is new. */
async function least(browser, pane = 'keyboard') {
  await arrange(browser, pane);
  let found = await load(browser);
  for (let more = 0; more < 9 && found !== null && found > GOAL; more++) found = Math.min(found, await load(browser));
  return found;
}

/** The same while six strokes a second arrive: these letters, time and again. A script of the page's sends them: what a driver
    does for a key isn't counted. */
async function leastTyping(browser, pane, letters = 'KEYBOARD') {
  await browser.evaluate(`(() => {
    const board = document.getElementById('board');
    const send = (type, code) => board.dispatchEvent(new KeyboardEvent(type, { code, bubbles: true, cancelable: true }));
    let many = 0;
    globalThis.strokes = setInterval(() => {
      const code = 'Key' + ${JSON.stringify(letters)}[many++ % ${letters.length}];
      send('keydown', code);
      setTimeout(send, ${HELD}, 'keyup', code);
    }, ${BETWEEN_STROKES});
  })(); 0`);
  const found = await least(browser, pane);
  await fewPictures(browser, letters);
  await browser.evaluate('clearInterval(strokes)');
  return found;
}

/** What one task of the page changes is seen at once, and is one picture. They are counted after the load, to which a watcher
    adds; and again if other work on the machine held the strokes up. */
async function fewPictures(browser, letters) {
  let counted = await pictures(browser);
  for (let tries = 1; tries < 5 && (counted.rate <= 3 || counted.each > MOST_PICTURES); tries++) counted = await pictures(browser);
  assert.ok(counted.rate > 3, `${counted.rate.toFixed(1)} strokes a second arrived`);
  assert.ok(counted.each <= MOST_PICTURES, `${counted.each.toFixed(2)} pictures for each stroke of ${letters}`);
}

/** How many strokes a second arrive, and the pictures of each. */
async function pictures(browser) {
  await browser.evaluate(`(() => {
    globalThis.pictures = 0;
    globalThis.watch = new MutationObserver(() => { pictures++; });
    watch.observe(document.body, { subtree: true, childList: true, characterData: true, attributes: true });
  })(); 0`);
  const before = await typed(browser), began = Date.now();
  await browser.wait(MEASURED);
  const drawn = await browser.evaluate('watch.disconnect(); pictures'), strokes = await typed(browser) - before;
  return { rate: strokes / ((Date.now() - began) / 1000), each: drawn / strokes };
}

const typed = browser => browser.evaluate('lab.live.events.filter(it => it.words.startsWith("press ")).length');

/** The load in each state that a page may be left in. */
export async function loads(browser) {
  const rest = await least(browser), typing = await leastTyping(browser), same = await leastTyping(browser, 'keyboard', 'A');
  await browser.put('program', 'the keyboard that I type on');
  const live = await least(browser, 'processor'), both = await leastTyping(browser, 'processor');
  await browser.put('program', 'four_keys.asm');
  await browser.click('#masked');
  await browser.evaluate('lab.keys.hold("b", true, "test"); lab.keys.hold("b", false, "test")');
  const masked = await least(browser);
  await browser.click('#masked');
  if (rest === null) return 'its load wasn\'t measured here';
  for (const [name, share] of Object.entries({ rest, typing, same, live, both, masked })) assert.ok(share <= TOO_MUCH, `${share.toFixed(1)} % of one processor: ${name}`);
  const per = [rest, typing, same, live, both, masked].map(share => share.toFixed(0));
  return `${per[0]} % of one processor at rest with all panes, ${per[1]} % while one types six keys a second, ${per[2]} % if it is one key, ${per[3]} and ${per[4]} % at rest and typing with the live processor in sight, ${per[5]} % while a byte waits`;
}

/** A trap drops the module, and the page says so. */
export async function trap(browser) {
  const said = await browser.evaluate('(() => { try { lab.keyboard.machine.call("kbd48_lights", 0xFFFFFF00n, 0xFFFFFF00n); } catch (error) { return error.name; } })()');
  assert.equal(said, 'Trapped');
  await browser.says('trouble', /trapped and was dropped/);
  assert.ok(await browser.evaluate('!document.getElementById("trouble").hidden'));
}
