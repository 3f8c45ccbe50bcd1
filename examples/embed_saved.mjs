// Save states: a keyboard of the sample layout is saved when it has tested itself. Then somebody types h, and this prints what
// happened and what is inside. A second keyboard is loaded of the save, and the same calls print the same.
// node examples/embed_saved.mjs lab/lab.html
import { readFileSync } from 'node:fs';
import { gunzipSync } from 'node:zlib';
import { Item, Kbd48Error, Keyboard, Status } from '../lab/kbd48.mjs';

// The cell that has the last byte which the keyboard sent (docs/FIRMWARE.md), and the kinds by their names.
const LAST = 76, KINDS = Object.keys(Item);
const hex = (value, digits) => value.toString(16).toUpperCase().padStart(digits, '0');

// What happened since this was last asked, and what is inside now.
function report(keyboard) {
  const lines = [...keyboard.items()].map(({ cycle, kind, value }) => `${cycle} ${KINDS[kind].toLowerCase()} ${hex(value, 4)}`);
  const { counter, a } = keyboard.inside();
  return [...lines, `cycle ${keyboard.cycle()}: counter ${hex(counter, 3)}, accumulator ${hex(a, 2)}, cell ${LAST} ${hex(keyboard.cell(LAST), 2)}`];
}

function typeH(keyboard) {
  const h = keyboard.sampleKey('h');
  for (const down of [true, false]) {
    keyboard.key(h, down);
    keyboard.run(20_000);
  }
  return report(keyboard);
}

// What becomes of bytes that are loaded.
function refusal(keyboard, bytes) {
  try {
    keyboard.load(bytes);
  } catch (error) {
    if (!(error instanceof Kbd48Error)) throw error;
    return error.status === Status.OTHER_VERSION ? 'refused' : 'refused for another cause';
  }
  return 'taken';
}

const page = readFileSync(process.argv[2] ?? 'lab/lab.html', 'utf8');
const module = gunzipSync(Buffer.from(page.match(/id="keyboard-module">([^<]*)/)[1], 'base64'));
const keyboard = await Keyboard.load(module), loaded = new Keyboard(keyboard.machine);
keyboard.openSample();
keyboard.bios(true);
keyboard.run(160_000);
console.log(report(keyboard).join('\n'));
const saved = keyboard.save();
const first = typeH(keyboard);
console.log(['saved', ...first].join('\n'));
loaded.load(saved);
const second = typeH(loaded);
console.log(['loaded', ...second].join('\n'));
saved[7]++;
console.log(`of another version: ${refusal(loaded, saved)}`);
process.exitCode = first.join() === second.join() ? 0 : 1;
