// The processor pane: steps, runs and breakpoints in a run of a key file, and in the keyboard that one types on.
import assert from 'node:assert/strict';
import { writeFileSync } from 'node:fs';
import { join } from 'node:path';
import { pacedAt } from '../hands.mjs';

const here = browser => browser.evaluate('document.querySelector("#code .here").textContent');
const stepOf = async browser => Number(/^step (\d+)/.exec(await browser.textOf('at'))[1]);
const AT_ONCE = '999999999';

/** Lets the program run for some three seconds, and returns how many they were for the page. */
async function ranFor(browser) {
  const clicked = () => browser.evaluate('document.getElementById("run").click(); performance.now()'), began = await clicked();
  await browser.wait(3000);
  return (await clicked() - began) / 1000;
}

/** Each kind of breakpoint, steps both ways, and what the tables show. */
export async function breakpoints(browser) {
  await browser.only('processor');
  await browser.put('stop-place', 'send');
  await browser.click('#run');
  await browser.says('at', /step 5800, cycle 8120, stamp 4024: stopped at place/);
  assert.match(await browser.textOf('registers'), /PC019A1C.*R0 to R7.*stack/);
  assert.match(await here(browser), /^019 {2}send:/);
  await browser.put('stop-place', '');
  await browser.put('stop-byte', 'keyboard 1C');
  await browser.click('#run');
  await browser.says('at', /step 6069, .*stopped at byte/);
  await browser.click('#back');
  await browser.says('at', /step 6068,/);
  await browser.click('#step');
  await browser.says('at', /step 6069,/);
  await browser.put('stop-byte', 'nothing');
  await browser.click('#run');
  await browser.says('at', /isn't understood/);
  await browser.put('stop-byte', '');
  await browser.click('#power');
  await browser.put('stop-cell', '02=1C');
  await browser.put('pace', AT_ONCE);
  await browser.click('#run');
  await browser.says('at', /stopped at cell$/);
  assert.equal(await browser.evaluate('document.querySelector("#cells td:nth-of-type(3)").textContent'), '1C');
  await browser.put('stop-cell', '');
}

/** By keys alone: two lines on, a breakpoint there and none, and a run up to the line. */
export async function cursor(browser) {
  await browser.evaluate('document.getElementById("code").focus()');
  for (const code of ['ArrowDown', 'ArrowDown', 'ArrowDown', 'ArrowUp', 'Enter']) await browser.stroke(code, 5);
  const place = await browser.valueOf('stop-place');
  assert.match(place, /^0[0-9A-F]{2}$/);
  assert.equal(await browser.evaluate('document.querySelector("#code .stop").textContent.slice(0, 3)'), place);
  assert.equal(await browser.evaluate('document.getElementById("code").getAttribute("aria-activedescendant")'), `place-${Number.parseInt(place, 16)}`);
  await browser.stroke('Enter', 5);
  assert.equal(await browser.valueOf('stop-place'), '');
  await browser.click('#cursor');
  await browser.says('at', /stopped at place$/);
  assert.equal((await here(browser)).slice(0, 3), place);
  // By the mouse: a line is chosen by a click.
  await browser.click('#place-25');
  await browser.click('#cursor');
  await browser.says('at', /stopped at place$/);
  assert.match(await here(browser), /^019 {2}send:/);
  // A double click sets the breakpoint, and another takes it away.
  for (const stop of ['019', '']) {
    await browser.evaluate('document.getElementById("place-25").dispatchEvent(new MouseEvent("dblclick", { bubbles: true })); 0');
    assert.equal(await browser.valueOf('stop-place'), stop);
  }
}

/** A hundred steps back and on are the states of the run, however they are asked for; and few runs answer them. */
export async function stepsBack(browser) {
  const same = await browser.evaluate(`(() => {
    const it = lab.processor.session, at = [0, 1, 59, 60, 4095, 6068, 6069].map(steps => JSON.stringify(it.at(steps)));
    it.state = it.at(6069);
    const seen = [];
    for (let n = 0; n < 100; n++) seen.push(it.state = it.back());
    for (let n = 0; n < 100; n++) it.state = it.goOn(1, []).state;
    const on = it.goOn(30, []).state, one = it.go(30, []).state;
    return [it.state.steps, seen.every((state, n) => state.steps === 6068 - n), at.every(state => state.includes('"steps"')), JSON.stringify(on) === JSON.stringify(one)];
  })()`);
  assert.deepEqual(same, [6069, true, true, true]);
  const runs = await browser.evaluate(`(() => {
    const { machine } = lab.program, call = machine.call.bind(machine), it = lab.processor.session;
    let runs = 0;
    machine.call = (name, ...words) => { runs += name === 'kbd48_call'; return call(name, ...words); };
    it.state = it.at(9000);
    for (let n = 0; n < 200; n++) it.state = it.go(1, []).state;
    for (let n = 0; n < 200; n++) it.state = it.back();
    delete machine.call;
    return runs;
  })()`);
  assert.ok(runs <= 5, `${runs} runs for 400 steps`);
}

/** Step goes into a call, Step over to what follows it; what is no call is a step. */
export async function calls(browser, folder) {
  const file = join(folder, 'calls.asm'), now = () => browser.evaluate('[lab.processor.session.state.counter, lab.processor.session.state.stack.length]');
  writeFileSync(file, 'MOV R0,#3\nagain: CALL down\nJMP again\ndown: DEC R0\nRET\n');
  await browser.choose('#open-file', [file]);
  await browser.until('"calls.asm" in lab.files');
  await browser.put('program', 'calls.asm');
  for (const [id, counter, depth] of [['step', 2, 0], ['step', 6, 1], ['back', 2, 0], ['over', 4, 0], ['over', 2, 0], ['over', 4, 0]]) {
    await browser.click(`#${id}`);
    assert.deepEqual(await now(), [counter, depth], id);
  }
  await browser.put('program', 'four_keys.asm');
}

/** Any pace; a breakpoint on a register of the kernel; the run ends, and goes on to a step by its number. */
export async function paces(browser, shot) {
  await browser.put('goto', '60119');
  await browser.says('said', /4440 word 1E61[^]*40879 word 2E63$/);
  await browser.put('program', 'us84.toml');
  await browser.put('program-layout', 'us84.toml');
  await browser.put('program-keys', 'make_code.keys');
  await browser.put('stop-register', 'R2=1C');
  await browser.put('pace', AT_ONCE);
  await browser.click('#run');
  await browser.says('at', /stopped at register/);
  await shot('processor');
  await browser.put('stop-register', '');
  // A slow or busy machine doesn't make as many steps as are asked for.
  for (const [pace, least] of [['1', 0.5], ['10', 0.5], ['100', 0.5], ['10000', 0.25], ['218000', 0.1]]) {
    await browser.put('pace', pace);
    await pacedAt(pace, async () => {
      await browser.click('#power');
      const seconds = await ranFor(browser);
      // At one a second the first comes after a second.
      return (await stepOf(browser) + 0.5) / seconds;
    }, least);
  }
  await browser.put('pace', AT_ONCE);
  await browser.put('program', 'run_on.asm');
  await browser.click('#run');
  await browser.says('at', /the run has ended/);
}

/** The processor of the keyboard that one types on: its time stops, steps go on and back, and a breakpoint is met. */
export async function live(browser, shot) {
  const shown = () => browser.evaluate('JSON.stringify(lab.processor.session.state)');
  const press = async (id, many) => { for (let count = 0; count < many; count++) await browser.evaluate(`document.getElementById("${id}").click()`); };
  await browser.put('program', 'the keyboard that I type on');
  await browser.says('at', /it runs/);
  await browser.click('#step');
  await browser.says('at', /^cycle \d+, stamp \d+$/);
  assert.equal(await browser.valueOf('speed'), '0', 'its time is stopped');
  const states = [await shown()];
  for (let count = 0; count < 70; count++) {
    await press('step', 1);
    states.push(await shown());
  }
  assert.equal(new Set(states).size, 71, 'each step shows another state');
  for (let count = 69; count >= 0; count--) {
    await press('back', 1);
    assert.equal(await shown(), states[count], 'a step back is the state before');
  }
  await press('step', 1);
  assert.equal(await shown(), states[1]);
  // A key goes down while the time is stopped: the program comes to the place that sends its code.
  const before = await browser.evaluate('lab.live.cycle');
  await browser.evaluate('lab.keys.hold("a", true, "test")');
  await browser.put('stop-byte', 'keyboard 1C');
  await browser.put('pace', AT_ONCE);
  await browser.click('#run');
  await browser.says('at', /: stopped at byte$/);
  const sent = await shown(), again = await browser.evaluate(`(() => {
    const look = it => [it.cycle(), JSON.stringify(it.inside())].join();
    return [look(lab.keyboard), lab.live.history.on(${before}, (copy, now) => now >= lab.live.cycle, look)];
  })()`);
  assert.equal(again[1], again[0], 'a copy from before the key is handed the key too');
  await press('back', 5);
  await browser.put('stop-byte', '');
  await press('step', 5);
  assert.equal(await shown(), sent, 'what was handed in is handed in again');
  await shot('live_processor');
  // The PC's EE isn't the keyboard's.
  await browser.put('stop-byte', 'keyboard EE');
  await browser.evaluate('lab.live.order(0x60, 0xEE)');
  await browser.click('#run');
  await browser.says('at', /: stopped at byte$/);
  assert.deepEqual(await browser.evaluate('lab.live.bytes.slice(-2).map(it => it.sender)'), ['host', 'keyboard']);
  await browser.put('stop-byte', '');
  // A place, a register and a cell stop it too.
  for (const [field, value, kind] of [['stop-place', '007', 'place'], ['stop-register', 'R4=00', 'register'], ['stop-cell', '20=00', 'cell']]) {
    await browser.put(field, value);
    await browser.click('#run');
    await browser.says('at', new RegExp(`: stopped at ${kind}$`));
    await browser.put(field, '');
  }
  // One instruction a second.
  await browser.put('pace', '1');
  const from = await browser.evaluate('lab.live.cycle'), seconds = await ranFor(browser), passed = await browser.evaluate('lab.live.cycle') - from;
  assert.ok(passed >= 1 && passed <= 2 * (seconds + 2), `${passed} cycles in ${seconds.toFixed(1)} seconds`);
  await browser.evaluate('lab.keys.hold("a", false, "test")');
  await browser.only('keyboard');
  await browser.click('#go-on');
  await browser.until('document.getElementById("stopped").hidden');
  await browser.only('processor');
  await browser.says('at', /it runs/);
  await browser.put('program', 'four_keys.asm');
}
