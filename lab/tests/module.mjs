// usage: node module.mjs LAB.html EXAMPLES [CHECKSUM]: the two modules of the page, in Node. Each line of examples/commands
// gives its text and status byte for byte; typing gives the log of `run`; a broken text is an error; what is typed at once
// arrives; a run ends at what it was asked for; noise is asked away; two BIOSes are helped; random calls have the checksum of the native library, when that is given.
import assert from 'node:assert/strict';
import { existsSync, readFileSync } from 'node:fs';
import { gunzipSync } from 'node:zlib';
import { Help, Item, Kbd48Error, Keyboard, Program, Status, Stop, TICK } from '../kbd48.mjs';

const [, , page, examples, native] = process.argv;
const CALLS = 10_000, SEED = 7;
const html = readFileSync(page, 'utf8');
const moduleOf = id => gunzipSync(Buffer.from(new RegExp(`id="${id}">([^<]*)<`).exec(html)[1], 'base64'));
const fileOf = name => readFileSync(`${examples}/${name}`);
const keyboardModule = moduleOf('keyboard-module'), program = await Program.load(moduleOf('program-module'));
const layout = fileOf('us84.toml'), hex = fileOf('us84.hex');
const besides = name => readFileSync(new URL(name, import.meta.url), 'utf8');
const refused = (call, status) => assert.throws(call, error => error instanceof Kbd48Error && error.status === status);

/** kbd48.mjs has each call and each number of the header, and kbd48.d.ts each of its methods. */
function everyCall() {
  const header = besides('../../c/kbd48.h'), source = besides('../kbd48.mjs');
  const calls = [...header.matchAll(/^(?:int32_t|uint8_t|bool) (kbd48_\w+)\(/gm)].map(([, name]) => name);
  const exported = WebAssembly.Module.exports(new WebAssembly.Module(keyboardModule));
  assert.deepEqual(calls.filter(name => !source.includes(`'${name}'`)), [], 'calls that kbd48.mjs lacks');
  assert.deepEqual(calls.filter(name => !exported.some(it => it.name === name)), [], 'calls that the module lacks');
  const numbers = { Status: {}, Item: {}, Stop: {} }, kinds = { ITEM_: 'Item', STOP_: 'Stop' };
  for (const [, kind, name, number] of header.matchAll(/KBD48_(ITEM_|STOP_|)(\w+) = (\d+)/g)) numbers[kinds[kind] ?? 'Status'][name] = Number(number);
  assert.deepEqual({ Status: { ...Status }, Item: { ...Item }, Stop: { ...Stop } }, numbers);
  assert.equal(TICK, Number(/KBD48_TICK (\w+)/.exec(header)[1]));
  const types = besides('../kbd48.d.ts'), methods = [Keyboard, Help].flatMap(it => Object.getOwnPropertyNames(it.prototype)).filter(name => name !== 'constructor');
  assert.deepEqual(methods.filter(name => !new RegExp(`^  (readonly )?${name}[(:]`, 'm').test(types)), [], 'what kbd48.d.ts lacks');
  return calls.length;
}

function everyCommand() {
  let count = 0;
  for (const line of fileOf('commands').toString().split('\n')) {
    if (!line || line.startsWith('#')) continue;
    const [status, expected, ...words] = line.split(' ');
    if (words.some(word => word.includes('\\'))) continue; // a word that is no UTF-8 text, which JavaScript can't say
    const files = Object.fromEntries(words.slice(1).filter(word => existsSync(`${examples}/${word}`)).map(word => [word, fileOf(word)]));
    const said = program.run(words, files);
    assert.equal(said.exit, Number(status), line);
    assert.ok(Buffer.compare(said.bytes, fileOf(expected)) === 0, line);
    count++;
  }
  assert.ok(count > 50, 'there are commands');
  return count;
}

/** The log of examples/typing_hi.keys, from a keyboard that somebody types on, as examples/embed.c makes it. */
async function typing() {
  const keyboard = await Keyboard.load(keyboardModule), lines = [], words = [];
  const tick = () => Math.floor((keyboard.cycle() - 4096) / 2048), hex = (number, digits) => number.toString(16).toUpperCase().padStart(digits, '0');
  function runTo(ms) {
    const end = 4096 + 400 * ms;
    for (let now; (now = keyboard.cycle()) < end;) {
      if (keyboard.run(end - now, true) !== Status.ROSE) continue;
      do keyboard.run(1); while (keyboard.interrupt());
      lines.push(`${tick()} port ${hex(keyboard.read60(), 2)}`);
      for (let word; (word = keyboard.take()) !== null; words.push(word)) lines.push(`${tick()} word ${hex(word, 4)}`);
    }
  }
  keyboard.openLayout(layout);
  keyboard.bios(true);
  for (const [ms, place, down] of [[400, 41, true], [450, 34, true], [500, 34, false], [550, 41, false], [600, 23, true], [645, 23, false], [700, 40, true], [745, 40, false]]) {
    runTo(ms);
    assert.equal(keyboard.key(place, down), Status.DONE);
  }
  runTo(780);
  for (const word of words) lines.push(`${tick()} taken ${hex(word, 4)}`);
  lines.push(`${tick()} taken none`, '');
  keyboard.close();
  assert.equal(lines.join('\n'), fileOf('typing_hi.log').toString());
}

async function refusals() {
  const keyboard = await Keyboard.load(keyboardModule);
  assert.throws(() => keyboard.openLayout(Buffer.from('format = 1\n')), error => error instanceof Kbd48Error && error.status === Status.BAD_TEXT && error.number === 3);
  assert.throws(() => keyboard.openHex(Buffer.from(':00')), error => error.status === Status.BAD_TEXT && error.position === 1 && error.number === 1);
  assert.throws(() => keyboard.lights(), error => error.status === Status.NOT_OPEN);
  keyboard.openLayout(layout);
  assert.equal(keyboard.key(96, true), Status.NO_SUCH_PLACE);
  assert.equal(keyboard.write(0x61, 0), Status.NO_SUCH_PORT);
  for (let place = 0; place < 4; place++) assert.equal(keyboard.key(place, true), Status.DONE);
  assert.equal(keyboard.key(4, true), Status.FULL);
  assert.equal(program.run(['run', 'a.toml', 'b.keys']).exit, 5);
  assert.equal(program.run([]).exit, 2);
}

/** The looks, the items and the copies: two keyboards in one state give the same answers, and a look changes nothing. */
async function looks() {
  const keyboard = await Keyboard.load(keyboardModule), seen = of => [of.cycle(), of.wires(), of.inside(), of.look(), of.waiting(), of.lights()];
  keyboard.openLayout(layout);
  keyboard.bios(true);
  while (keyboard.run(400_000, true) !== Status.ROSE);
  assert.equal(keyboard.rises(), 1);
  assert.deepEqual(keyboard.look(), { status: 0x15, output: 0xAA, commandByte: 0x45, outputPort: 0xCF });
  const kept = keyboard.copy();
  keyboard.run(200);
  const [sent, said] = [...keyboard.items()];
  assert.deepEqual({ ...sent, cycle: 0 }, { cycle: 0, kind: Item.SENT, value: 0xAA });
  assert.deepEqual({ ...said, cycle: 0 }, { cycle: 0, kind: Item.PORT, value: 0xAA });
  assert.ok(said.cycle < keyboard.cycle() && said.cycle >= keyboard.cycle() - 200, 'an item has its cycle');
  assert.equal(keyboard.next(), null);
  kept.run(200);
  assert.deepEqual(seen(kept), seen(keyboard));
  assert.deepEqual([...kept.items()], [sent, said]);
  const bytes = keyboard.save();
  kept.load(bytes);
  assert.equal(bytes.length, 3077);
  assert.deepEqual(kept.save(), bytes);
  assert.deepEqual(seen(kept), seen(keyboard));
  refused(() => kept.load(bytes.subarray(1)), Status.BAD_SIZE);
  refused(() => kept.load(new Uint8Array(3077)), Status.NOT_SAVED);
  assert.deepEqual(kept.save(), bytes, 'what is refused changes nothing');
  assert.equal(keyboard.key(29, true), Status.DONE);
  assert.deepEqual(keyboard.waiting(), { edges: 1, words: 0 });
  assert.equal(keyboard.column(3), 0xFF);
  const before = seen(keyboard);
  keyboard.cell(0x20);
  assert.deepEqual(seen(keyboard), before, 'a look changes nothing');
  keyboard.run(1);
  assert.equal(keyboard.column(3), 0xDF, 'row 5 of column 3 is down');
  assert.equal(kept.column(3), 0xFF, 'the copy is a keyboard of its own');
  keyboard.copyTo(kept);
  assert.equal(kept.column(3), 0xDF);
  let pulled = 0;
  for (let end = keyboard.cycle() + 8000; keyboard.cycle() < end; keyboard.step()) {
    const pulls = keyboard.pulls();
    assert.equal(keyboard.wires(), ~(pulls.keyboard | pulls.controller) & 3, 'a wire is low if a side pulls it');
    assert.equal(pulls.keyboard, ~keyboard.inside().p2 & 3);
    pulled |= pulls.keyboard;
  }
  assert.equal(pulled, 3, 'it pulls both wires when it sends');
  assert.equal(keyboard.take(), 0x1E61);
  // Watched, and step by step, a release changes the wires at the same cycles.
  keyboard.key(29, false);
  keyboard.copyTo(kept);
  const changes = (of, go) => {
    const seen = [], end = of.cycle() + 8000;
    for (let levels = of.wires(); of.cycle() < end;) {
      go(end - of.cycle());
      if (of.wires() !== levels) seen.push([of.cycle(), levels = of.wires()]);
    }
    return seen;
  };
  const edges = changes(keyboard, () => keyboard.step());
  assert.ok(edges.length > 40, 'two bytes pass');
  assert.deepEqual(changes(kept, cycles => kept.watch(cycles)), edges);
  for (let n = 0; n < 65; n++) keyboard.status();
  assert.throws(() => [...keyboard.items()], error => error.status === Status.LOST);
  assert.throws(() => keyboard.cell(128), error => error.status === Status.NO_SUCH_CELL);
  kept.free();
  assert.equal(keyboard.close(), undefined);
  assert.throws(() => keyboard.inside(), error => error.status === Status.NOT_OPEN);
}

/** The text of the words that INT 09h entered. */
function taken(keyboard) {
  const codes = [];
  for (let word; (word = keyboard.take()) !== null;) codes.push(word & 255);
  return String.fromCharCode(...codes);
}

/** The queue of keys: what is pushed at once arrives as it is, also at a copy, and what it has no room for is refused. */
async function queue() {
  const keyboard = await Keyboard.load(keyboardModule), left = keyboard.sampleKey('lshift'), names = { ' ': 'space', ',': 'comma', '!': '1' };
  const push = (place, down) => assert.equal(keyboard.queueKey(place, down), Status.DONE), text = 'Hello, World!';
  assert.equal(keyboard.version(), Number(/KBD48_VERSION_NUMBER (\d+)/.exec(besides('../../c/kbd48.h'))[1]));
  assert.equal(keyboard.sampleKey('h'), 34);
  assert.equal(keyboard.layoutKey(layout, 'h'), 34);
  assert.equal(keyboard.layoutKey(fileOf('four_keys.toml'), 'b'), 1);
  for (const name of ['H', '', 'nothing']) refused(() => keyboard.sampleKey(name), Status.NO_SUCH_KEY);
  refused(() => keyboard.layoutKey(fileOf('four_keys.toml'), 'space'), Status.NO_SUCH_KEY);
  refused(() => keyboard.layoutKey(Buffer.from('format = '), 'h'), Status.BAD_TEXT);
  refused(() => keyboard.runKeys(1), Status.NOT_OPEN);
  keyboard.openSample();
  keyboard.bios(true);
  keyboard.run(160_000);
  for (const letter of text) {
    const shift = /[A-Z!]/.test(letter), place = keyboard.sampleKey(names[letter] ?? letter.toLowerCase());
    if (shift) push(left, true);
    push(place, true);
    push(place, false);
    if (shift) push(left, false);
  }
  assert.equal(keyboard.queued(), 32);
  const copy = keyboard.copy(), ran = keyboard.runKeys(160_000);
  assert.deepEqual(ran, { status: Status.DONE, passed: keyboard.passed, rises: 32 });
  assert.ok(ran.passed === 160_000 || ran.passed === 160_001, 'it goes on through each edge');
  assert.equal(keyboard.queued(), 0);
  const empty = keyboard.saveQueue();
  assert.equal(taken(keyboard), text);
  assert.equal(copy.queued(), 32, 'the copy has a queue of its own');
  const queue = copy.queue;
  copy.queue = keyboard.queue;
  assert.equal(copy.queued(), 0, 'a queue may be put in the place of another');
  copy.queue = queue;
  assert.equal(copy.queued(), 32);
  assert.throws(() => { copy.queue = queue.subarray(1); }, RangeError);
  const saved = copy.saveQueue();
  assert.equal(saved.length, 1629);
  keyboard.loadQueue(saved);
  assert.deepEqual([keyboard.queued(), keyboard.saveQueue()], [32, saved], 'a queue that was saved is loaded as it was');
  keyboard.loadQueue(empty);
  assert.equal(keyboard.queued(), 0);
  for (const [at, status] of [[0, Status.NOT_SAVED], [7, Status.OTHER_VERSION], [16, Status.BAD_STATE]]) {
    const other = saved.slice();
    other[at] ^= 0xFF;
    refused(() => copy.loadQueue(other), status);
  }
  refused(() => copy.loadQueue(saved.subarray(1)), Status.BAD_SIZE);
  assert.deepEqual(copy.queue, queue, 'a queue stays if bytes are refused');
  let rises = 0;
  for (let end = keyboard.cycle(); copy.cycle() < end - 100;) {
    const { status, rises: more } = copy.runKeys(1000, true);
    assert.ok(status === Status.DONE || status === Status.ROSE);
    rises += more;
  }
  assert.equal(rises, 32);
  assert.equal(taken(copy), text);
  // A key that is so already is refused, and so are presses while 64 edges wait. Releases find room.
  assert.equal(keyboard.queueKey(0, false), Status.REPEATED);
  refused(() => keyboard.queueKey(96, true), Status.NO_SUCH_PLACE);
  for (let place = 0; place < 64; place++) push(place, true);
  assert.equal(keyboard.queueKey(64, true), Status.FULL);
  assert.equal(keyboard.queueKey(7, true), Status.REPEATED);
  keyboard.copyTo(copy);
  keyboard.releaseAll();
  assert.deepEqual([keyboard.queued(), copy.queued()], [128, 64]);
  keyboard.runKeys(480_000);
  assert.equal(keyboard.queued(), 0);
  for (let column = 0; column < 12; column++) assert.equal(keyboard.column(column), 0xFF);
  // An edge of a later cycle waits for it; a keyboard that is opened has an empty queue.
  const later = keyboard.cycle() + 40_000;
  assert.equal(keyboard.queueKey(29, true, later), Status.DONE);
  keyboard.runKeys(later - keyboard.cycle());
  assert.equal(keyboard.queued(), 1);
  keyboard.runKeys(1);
  assert.equal(keyboard.queued(), 0);
  assert.equal(keyboard.column(3), 0xDF);
  copy.openHex(hex);
  assert.equal(copy.queued(), 0);
  assert.equal(copy.queueKey(0, true), Status.DONE);
  copy.free();
}

/** A run ends at the first step that does what it was asked for, and a keyboard that is opened ready is one that was run. */
async function runs() {
  const keyboard = await Keyboard.load(keyboardModule);
  keyboard.openLayout(layout);
  keyboard.bios(true);
  const few = keyboard.runTo(0, 400_000, { steps: 9 });
  assert.ok(few.status === Status.DONE && few.met === 0 && few.passed >= 9 && few.passed <= 18, 'nine steps');
  const copy = keyboard.copy(), said = keyboard.runTo(Stop.ITEM, 400_000);
  assert.equal(said.met, Stop.ITEM);
  assert.equal(keyboard.next().kind, Item.SENT);
  const item = keyboard.next();
  assert.deepEqual([item.kind, item.value, keyboard.next()], [Item.PORT, 0xAA, null]);
  assert.ok(keyboard.cycle() - item.cycle <= 2, 'it ends in the step of one or two cycles in which that is said');
  const rise = copy.runTo(Stop.RISE | Stop.ITEM, 400_000);
  assert.deepEqual(rise, { status: Status.DONE, met: Stop.RISE, passed: copy.passed });
  assert.ok(copy.interrupt() && copy.rises() === 1);
  // Every change of a wire is met, at the cycle at which single steps find it.
  keyboard.key(29, true);
  keyboard.copyTo(copy);
  for (let changes = 0; changes < 22; changes++) {
    const wires = copy.wires(), { met, passed } = keyboard.runTo(Stop.WIRES, 8000);
    let gone = 0;
    do {
      copy.step();
      gone += copy.passed;
    } while (copy.wires() === wires);
    assert.deepEqual([met, passed, keyboard.wires()], [Stop.WIRES, gone, copy.wires()]);
  }
  for (let ticks = 0; ticks < 3; ticks++) {
    const { met, passed } = keyboard.runTo(Stop.COUNTER, 4096, { at: TICK });
    assert.equal(met, Stop.COUNTER);
    assert.equal(keyboard.inside().counter, TICK);
    assert.ok(ticks === 0 || Math.abs(passed - 2048) < 2, 'a tick has 2,048 cycles');
  }
  assert.equal(keyboard.runTo(Stop.COUNTER, 100, { at: 0x7FF }).met, 0, 'a limit');
  keyboard.openHex(Buffer.from(':0100000001FE\n:00000001FF\n'));
  assert.deepEqual(keyboard.runTo(0, 10), { status: Status.STUCK, met: 0, passed: 0 });
  assert.deepEqual(keyboard.stuck, { counter: 0, byte: 1 });
  assert.equal(keyboard.runKeys(10).status, Status.STUCK);
  // Ready.
  copy.openLayout(layout);
  while (copy.run(400_000, true) !== Status.ROSE);
  for (const open of [() => keyboard.openReadyLayout(layout), () => keyboard.openReadyHex(hex)]) {
    open();
    assert.deepEqual([keyboard.cycle(), keyboard.interrupt(), keyboard.look()], [copy.cycle(), true, copy.look()]);
    assert.equal(keyboard.read60(), 0xAA);
  }
  refused(() => keyboard.openReadyLayout(hex), Status.BAD_TEXT);
  assert.equal(keyboard.status() & 1, 0, 'what was open is as it was');
  // Off and on again: memory holds the byte, until a program writes it.
  keyboard.openHex(Buffer.from(':00000001FF\n'));
  keyboard.queueKey(34, true);
  for (const fill of [0x00, 0xA5]) {
    keyboard.powerOn(fill);
    assert.deepEqual([keyboard.inside().a, keyboard.inside().t, keyboard.cell(0), keyboard.cell(127), keyboard.queued()], [fill, fill, fill, fill, 0]);
  }
  keyboard.openLayout(layout);
  keyboard.powerOn(0xFF);
  assert.ok(keyboard.cycle() < 4099 && keyboard.run(400_000, true) === Status.ROSE && keyboard.read60() === 0xAA);
  // Six items more than are kept.
  copy.openSample();
  assert.equal(copy.lost(), 0);
  for (let count = 0; count < 70; count++) copy.status();
  assert.equal(copy.lost(), 6);
  for (let count = 0; count < 64; count++) assert.equal(copy.next().kind, Item.STATUS);
  refused(() => copy.next(), Status.LOST);
  assert.deepEqual([copy.next(), copy.lost()], [null, 0]);
  refused(() => { copy.close(); copy.runTo(0, 1); }, Status.NOT_OPEN);
}

/** Noise turns a bit of a byte: the PC asks for it again, and gets it. The wires have the byte as the keyboard sent it. */
async function noise() {
  const keyboard = await Keyboard.load(keyboardModule), passed = () => [...keyboard.items()].filter(it => it.kind === Item.SENT || it.kind === Item.GIVEN).map(it => [it.kind, it.value]);
  keyboard.openReadyLayout(layout);
  keyboard.bios(true);
  keyboard.run(4000);
  assert.deepEqual(passed(), [[Item.SENT, 0xAA]]);
  for (const bit of [0, 10, 255]) refused(() => keyboard.flip(bit), Status.NO_SUCH_BIT);
  for (let bit = 1; bit <= 9; bit++) {
    keyboard.flip(bit);
    keyboard.queueKey(29, bit % 2 === 1);
    keyboard.runKeys(12_000);
    const code = [[Item.SENT, 0x1C]], broken = bit % 2 ? code : [[Item.SENT, 0xF0]], rest = bit % 2 ? [] : code;
    assert.deepEqual(passed(), [...broken, [Item.GIVEN, 0xFE], ...broken, ...rest], `bit ${bit}`);
  }
  refused(() => { keyboard.close(); keyboard.flip(1); }, Status.NOT_OPEN);
}

/** Help for two BIOSes: without it SeaBIOS's F0 and 02 leave the keyboard disabled, and the test after FF takes 332 ms. */
async function helps() {
  const keyboard = await Keyboard.load(keyboardModule), [none, seabios, bochs] = [{}, { seabios: true }, { bochs: true }].map(it => new Help(keyboard, it));
  const answer = byte => {
    assert.equal(keyboard.write(0x60, byte), Status.DONE);
    return keyboard.run(40_000, true) === Status.ROSE ? keyboard.read60() : null;
  };
  keyboard.openReadyLayout(layout);
  keyboard.read60();
  for (const help of [none, seabios, bochs]) {
    const bytes = [0xF0, 0x02].map(byte => help.write(0x60, byte));
    assert.deepEqual([bytes, bytes.map(answer)], help === seabios ? [[0xF0, 0xEF], [0xFA, 0xFA]] : [[0xF0, 0x02], [0xFA, 0xFE]]);
    assert.equal(answer(help.write(0x60, 0xFF)), 0xFA);
    const begins = help.read(0xFA);
    assert.deepEqual([begins, help.read(0xFA)], [help === bochs, false], 'it is said once');
    assert.equal(keyboard.run(160_000, true), Status.ROSE);
    assert.equal(keyboard.read60(), 0xAA);
  }
  // A parameter is no byte for the keyboard. What was before is had again, and a copy goes its own way.
  assert.deepEqual([[0x60, 0xF0], [0x64, 0x60], [0x60, 0x45], [0x64, 0xD1]].map(it => seabios.write(...it)), [0xF0, 0x60, 0x45, 0xD1]);
  const before = { ...seabios }, copy = new Help(keyboard, before);
  assert.deepEqual(before, { seabios: true, bochs: false, parameter: true, last: 0xF0 });
  const rest = help => [[0x60, 0xCF], [0x60, 0x02], [0x60, 0x02]].map(it => help.write(...it));
  assert.deepEqual(rest(seabios), [0xCF, 0xEF, 0x02]);
  assert.deepEqual({ ...copy }, before);
  Object.assign(seabios, before);
  assert.deepEqual([rest(seabios), rest(copy)], [[0xCF, 0xEF, 0x02], [0xCF, 0xEF, 0x02]]);
  keyboard.free();
}

/** The calls of calls.c, and the checksum of their answers. */
async function checksum() {
  const keyboard = await Keyboard.load(keyboardModule), all = (1n << 64n) - 1n;
  let state = BigInt(SEED) * 2n + 1n, sum = 14695981039346656037n;
  const random = below => {
    state = state * 6364136223846793005n + 1442695040888963407n & all;
    return Number((state >> 33n) % BigInt(below));
  };
  const add = value => { for (let bit = 0n; bit < 64n; bit += 8n) sum = (sum ^ BigInt(value) >> bit & 255n) * 1099511628211n & all; };
  // What calls.c adds of a call, as one number.
  const both = (status, passed) => BigInt(status) * 1_000_000n + BigInt(passed);
  const said = {
    flip: bit => {
      try {
        keyboard.flip(bit);
        return Status.DONE;
      } catch (error) {
        return error.status;
      }
    },
    pulls: () => (({ keyboard: one, controller }) => one | controller << 2)(keyboard.pulls()),
    next: () => {
      try {
        const item = keyboard.next();
        return item ? BigInt(item.cycle * 100 + item.kind) + (BigInt(item.value) << 40n) : Status.NOTHING_SAID;
      } catch (error) {
        return error.status;
      }
    },
    keys: (cycles, watched) => {
      const { machine, to } = keyboard, status = machine.call('kbd48_run_keys', to.handle, to.queue, BigInt(cycles), watched, to.passed, to.spot);
      return both(status, keyboard.passed);
    },
    to: (cycles, x) => {
      const { status, met, passed } = keyboard.runTo(x & 15, cycles, { steps: 500, at: x * 8 });
      return both(status, passed) + (BigInt(met) << 32n);
    },
    look: cell => {
      const { status, output, commandByte } = keyboard.look(), { counter, a } = keyboard.inside();
      return BigInt(status | output << 8 | commandByte << 16) + (BigInt(counter) << 24n) + (BigInt(a) << 36n) + (BigInt(keyboard.cell(cell)) << 44n);
    },
  };
  keyboard.openLayout(layout);
  for (let n = 0; n < CALLS; n++) {
    const what = random(16), x = random(256), cycles = random(3000), flag = random(2), run = () => keyboard.run(cycles, flag === 1) * 1000000 + keyboard.passed;
    add([
      () => keyboard.key(x % 96, flag === 1), () => keyboard.key(x % 96, flag === 1),
      () => keyboard.write(flag ? 0x60 : 0x64, x), () => keyboard.read60(), () => keyboard.status(), () => keyboard.take() ?? 99999,
      () => (n % 50 ? keyboard.lights() : (keyboard.bios(flag === 1), 0)), () => keyboard.wires(),
      () => said.flip(x % 11), said.pulls, said.next, () => keyboard.queueKey(x % 96, flag === 1),
      () => said.keys(cycles, flag), () => said.to(cycles, x), () => said.look(x % 128), run,
    ][what]());
    add(keyboard.cycle() * 4 + keyboard.wires());
  }
  return `${sum.toString(16).padStart(16, '0')} cycle ${keyboard.cycle()}`;
}

const calls = everyCall(), commands = everyCommand();
await typing();
await refusals();
await looks();
await queue();
await runs();
await noise();
await helps();
const sum = await checksum();
if (native) assert.equal(sum, native.trim(), 'the native library answers otherwise');
console.log(`${calls} calls, ${commands} commands, typing, refusals, looks and copies, the queue, runs to something, noise, help for two BIOSes${native ? ', and the checksum of the native library' : ''}`);
