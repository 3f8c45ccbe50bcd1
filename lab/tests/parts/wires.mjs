// The pane of wires and log: who pulls which wire, what the PC says and hears, noise, and the picture.
import assert from 'node:assert/strict';
import { pacedAt } from '../hands.mjs';

const CLOCK = 1, DATA = 2, PC = 2, CYCLES_OF_ONE_MS = 400;
const picture = browser => browser.evaluate('document.getElementById("wave").toDataURL()');
const lights = (browser, all) => browser.until(`[...document.querySelectorAll('#lamps [data-lamp]')].map(it => Number(it.classList.contains('on'))).join('') === '${all}'`);
const quiet = browser => browser.until('lab.live.cycle - lab.live.edges.at(-1).cycle > 8000 && !lab.live.orders.length && !lab.live.pushed.length');
const heard = browser => browser.evaluate('lab.live.bytes.map(it => (it.sender === "host" ? ">" : "<") + it.byte.toString(16).toUpperCase().padStart(2, "0")).join(" ")');

/** Each button of the PC's, and what comes of it. */
export async function commands(browser) {
  const says = async (words, form) => {
    await quiet(browser);
    await browser.pressed('commands', words);
    for (const end = Date.now() + 30_000; !form.test(await heard(browser)); await browser.wait(50)) {
      assert.ok(Date.now() < end, `${words}: ${await heard(browser)}`);
    }
  };
  await says('ED 07', />ED <FA >07 <FA$/);
  await lights(browser, '111');
  await says('ED 00', />ED <FA >00 <FA$/);
  await lights(browser, '000');
  await says('EE', />EE <EE$/);
  await says('FE', />EE <EE >FE <EE$/);
  await says('F3 7F', />F3 <FA >7F <FA$/);
  const repeats = async () => {
    await quiet(browser);
    const before = (await heard(browser)).length, from = await browser.evaluate('lab.live.cycle');
    await browser.evaluate('lab.keys.hold("m", true, "test")');
    await browser.until(`lab.live.cycle > ${from} + 800000`);
    await browser.evaluate('lab.keys.hold("m", false, "test")');
    await quiet(browser);
    return (await heard(browser)).slice(before).match(/3A/g).length - 2;
  };
  const slow = await repeats();
  await says('F3 00', />F3 <FA >00 <FA$/);
  const fast = await repeats();
  assert.ok(slow >= 2 && fast > 5 * slow, `${fast} repeats in two seconds, and ${slow} slow ones`);
  await says('FF', />FF <FA <AA$/);
  await browser.says('log', /output DF|port AA\s*$/);
  // AD holds the clock, so nothing comes until AE.
  await quiet(browser);
  await browser.pressed('commands', 'AD');
  await browser.says('pulled', /^clock: low by the PC; data: high$/);
  const many = await browser.evaluate('lab.live.bytes.length');
  await browser.evaluate('lab.keys.hold("n", true, "test"); lab.keys.hold("n", false, "test")');
  await browser.wait(300);
  assert.equal(await browser.evaluate('lab.live.bytes.length'), many, 'the keyboard is off');
  await browser.pressed('commands', 'AE');
  await browser.until(`lab.live.bytes.length === ${many} + 3`);
  await quiet(browser);
  await browser.pressed('commands', 'D1');
  await browser.says('log', /the PC writes D1 to port 64[^]*the PC writes DF to port 60[^]*output DF/);
  await browser.put('any-byte', 'zz');
  await browser.click('#write60');
  await browser.says('judged', /zz is no byte/);
  await browser.put('any-byte', 'aa');
  await browser.click('#write64');
  await browser.says('log', /the PC writes AA to port 64[^]*port 55/);
  await browser.put('any-byte', 'F4');
  await browser.click('#write60');
  await browser.until('lab.live.bytes.at(-2)?.byte === 0xF4 && lab.live.bytes.at(-1).byte === 0xFA');
}

/** While INT 09h is masked a byte waits, and the PC holds the clock; sixteen more, and the keyboard has no room: a beep. */
export async function masked(browser) {
  await quiet(browser);
  await browser.click('#masked');
  await browser.evaluate('for (const name of "qwertyuiopasdfghjklzxcvb") for (const down of [true, false]) lab.keys.hold(name, down, "test")');
  await browser.says('pulled', /^clock: low by the PC; data: high$/);
  await browser.until('!lab.live.pushed.length');
  await browser.click('#read64');
  await browser.says('log', /status 1D|status 15/);
  await browser.click('#read60');
  await browser.says('log', /read 10/);
  await browser.click('#masked');
  await browser.says('log', /overrun[^]*beep|beep[^]*overrun/);
  await quiet(browser);
}

/** Who pulls: in the PC's frame the PC pulls the clock first and then data; both pull the clock when a byte has passed. */
export async function pullers(browser) {
  await quiet(browser);
  await browser.pressed('commands', 'EE');
  await browser.says('bytes', /PC → keyboard {2}EE[^]*keyboard → PC {2}EE/);
  await quiet(browser);
  const pulled = await browser.evaluate(`(() => {
    const { edges, bytes } = lab.live, asked = bytes.findLast(it => it.sender === 'host'), said = bytes.findLast(it => it.sender === 'keyboard');
    const within = (begin, end) => edges.filter(it => it.cycle >= begin && it.cycle <= end).map(it => [it.levels, it.pulls]);
    return { asked: within(asked.begin, asked.end), said: within(said.begin, said.end - 1), after: within(said.end, said.end + 400),
      before: edges.filter(it => it.cycle < asked.begin).slice(-4).map(it => it.pulls), all: edges.map(it => [it.levels, it.pulls]) };
  })()`);
  assert.ok(pulled.before.includes(CLOCK << PC), 'the PC alone holds the clock before it asks');
  assert.equal(pulled.before.at(-1), DATA << PC, 'and then data');
  assert.ok(pulled.asked.some(([levels, pulls]) => !(levels & DATA) && pulls & DATA << PC && !(pulls & DATA)), 'the PC pulls data in its frame');
  assert.ok(pulled.asked.some(([, pulls]) => pulls & CLOCK), 'the keyboard pulls the clock in it');
  assert.ok(pulled.said.every(([levels, pulls]) => (~levels & 3) === pulls), 'the keyboard alone pulls in its own frame');
  assert.ok(pulled.after.some(([, pulls]) => pulls & CLOCK && pulls & CLOCK << PC), 'both pull the clock, the PC to hold what came');
  assert.ok(pulled.all.every(([levels, pulls]) => (~levels & 3) === ((pulls | pulls >> PC) & 3)), 'a wire is low if a side pulls it');
  await browser.says('pulled', /^clock: high; data: high$/);
}

/** Noise turns a bit of the next byte: the PC asks for it again, and gets it. Each of the nine bits is one that it finds. */
export async function noise(browser) {
  for (const bit of [1, 9]) {
    await quiet(browser);
    await browser.put('noisy-bit', String(bit));
    await browser.click('#noise');
    await browser.says('log', new RegExp(`noise will turn ${bit === 9 ? 'the parity' : 'bit 1'} of the next byte`));
    const before = (await heard(browser)).length;
    await browser.evaluate('lab.keys.hold("v", true, "test")');
    await browser.until('lab.live.bytes.findLast(it => it.sender === "host")?.byte === 0xFE');
    await browser.evaluate('lab.keys.hold("v", false, "test")');
    await quiet(browser);
    assert.match((await heard(browser)).slice(before), /^ <2[AB] >FE <2A <F0 <2A$/);
  }
  await browser.click('#session');
  assert.match(await browser.evaluate('lab.files["session.keys"]'), /\d+ flip 1\n[^]*\d+ flip 9\n/);
}

/** This session under the model, and the runs of key files. */
export async function sessions(browser) {
  await browser.click('#judge');
  await browser.says('judged', /print the same \d+ lines/);
  await browser.put('shown', 'noisy_line.keys');
  await browser.says('log', /tick \d+ port AA[^]*word 1E61/);
  await browser.says('bytes', /PC → keyboard {2}FE/);
  await browser.says('pulled', /in which that isn't said/);
  await browser.put('shown', 'what I type');
  await browser.says('log', /the PC writes EE/);
}

/** Waits for a picture that isn't one of these. */
async function another(browser, shown, says) {
  for (const end = Date.now() + 5000; Date.now() < end; await browser.wait(30)) {
    const now = await picture(browser);
    if (!shown.includes(now)) return now;
  }
  return assert.fail(says);
}

/** The picture: there is one; it stays while it is paused; zoom, buttons, keys, wheel and drag change it. */
export async function waveform(browser, shot) {
  await browser.evaluate('document.getElementById("wires").scrollIntoView()');
  await browser.wait(300);
  await browser.click('#pause');
  const shown = [await picture(browser)];
  await browser.evaluate('lab.keys.hold("k", true, "test"); lab.keys.hold("k", false, "test")');
  await browser.wait(500);
  assert.equal(await picture(browser), shown[0], 'it is paused');
  const changes = async (act, name) => {
    await act();
    shown.push(await another(browser, shown, `${name} changes the picture`));
  };
  await changes(() => browser.click('#zoom-in'), 'zoom in');
  await changes(() => browser.click('#wave-back'), 'back');
  await browser.evaluate('document.getElementById("wave").focus()');
  await changes(() => browser.stroke('ArrowLeft', 5), 'the left arrow');
  await changes(() => browser.evaluate('document.getElementById("wave").dispatchEvent(new WheelEvent("wheel", { deltaY: -200, shiftKey: true, cancelable: true }))'), 'the wheel with Shift');
  const scrolls = await browser.evaluate('(() => { const event = new WheelEvent("wheel", { deltaY: -200, cancelable: true }); document.getElementById("wave").dispatchEvent(event); return !event.defaultPrevented; })()');
  assert.ok(scrolls, 'the wheel alone scrolls the page');
  const middle = await browser.place('#wave');
  await changes(async () => {
    await browser.mouse('down', middle);
    await browser.mouse('drag', { x: middle.x + 70, y: middle.y });
    await browser.mouse('up', { x: middle.x + 70, y: middle.y });
  }, 'a drag');
  await changes(() => browser.click('#zoom-out'), 'zoom out');
  await changes(() => browser.click('#wave-on'), 'on');
  await browser.evaluate('document.getElementById("wave").focus()');
  await changes(() => browser.stroke('ArrowRight', 5), 'the right arrow');
  await changes(() => browser.stroke('Equal', 5, { key: '+' }), 'the key +');
  // One less is the picture before the last.
  await changes(async () => { for (let count = 0; count < 2; count++) await browser.stroke('Minus', 5, { key: '-' }); }, 'the key -');
  await changes(() => browser.evaluate('document.getElementById("wave").dispatchEvent(new WheelEvent("wheel", { deltaY: 200, ctrlKey: true, cancelable: true }))'), 'the wheel with Ctrl');
  await browser.click('#pause');
  await another(browser, shown, 'what passed meanwhile is shown');
  await shot('wires');
}

/** Time runs slower, and stops. */
export async function speeds(browser) {
  const now = () => browser.evaluate('[lab.live.cycle, performance.now()]');
  const rate = async speed => {
    await browser.put('speed', speed);
    await browser.wait(200);
    const [before, began] = await now();
    await browser.wait(800);
    const [cycle, ended] = await now();
    return (cycle - before) / (ended - began) / CYCLES_OF_ONE_MS;
  };
  assert.equal(await rate('0'), 0);
  assert.ok(!await browser.evaluate('document.getElementById("stopped").hidden'));
  for (const speed of ['0.001', '0.01', '0.1', '1']) await pacedAt(speed, () => rate(speed));
}
