// A right keyboard beside a capture: the same strokes on the layout that is open, and its wires below those of the capture.
import { PackedEdges, sideBySide } from './captures/packed_edges.js';
import { edgesOf, strokesFile } from './captures/strokes.js';
import { byId, setText, tell } from './dom.js';
import { CYCLES_OF_A_MS, FIRST_STAMP } from './times.js';
import { keysOf } from './places.js';
import { explained } from './program.js';
import { EXIT } from './refusals.js';
import { runs } from './runs.js';
import { putMade } from './taking.js';
import { Waveform } from './waveform.js';

// The code of set 2 that each of the 84 keys sends, by its name.
const CODES_OF_KEYS = JSON.parse(byId('codes').textContent);
const STROKES = 'captured.keys';
const NO_WIRES = { edges: [], bytes: [], cycle: 0 };
const SHOWN_BESIDE = ['beside-wave', 'beside-note'];

/** Which key of a layout sends a code: a function from codes to names. A key that needs Fn is none. */
function keysByCode(layout) {
  const keys = keysOf(layout).filter(({ fn, sends }) => !fn && sends in CODES_OF_KEYS);
  // Of two keys that send one code, the first is taken.
  const names = new Map(keys.reverse().map(({ name, sends }) => [CODES_OF_KEYS[sends], name]));
  return code => names.get(code);
}

const counted = (many, what) => `${many} ${what}${many === 1 ? '' : 's'}`;

export class RightKeyboard {
  /** `wave` draws the capture; `opened()` answers the layout that the keyboard has, { name, text }. */
  constructor(wave, opened) {
    Object.assign(this, { wave, opened, turn: 0, isShown: false });
    this.beside = new Waveform(byId('beside-wave'), () => NO_WIRES);
    wave.onMoved = () => { if (this.isShown) this.beside.follow(wave); };
    this.beside.onMoved = () => wave.follow(this.beside);
  }

  hide() {
    this.turn++;
    this.isShown = false;
    this.beside.show(null);
    for (const id of SHOWN_BESIDE) byId(id).hidden = true;
    setText(byId('held'), '');
  }

  /** Makes the strokes of a capture, { name, edges, found }, with the bytes and marks that are found in it, and draws them. */
  async hold({ name, edges, found }) {
    const { name: layout, text } = this.opened(), turn = ++this.turn;
    const { edges: strokes, strange } = edgesOf(found.bytes, keysByCode(text));
    const without = strange.length ? ` ${layout} has no key for ${strange.join(', ')}.` : '';
    if (!strokes.length) {
      tell(byId('held'), `No stroke of a key of ${layout} is in it.${without}`, false);
      return;
    }
    const { text: keys, begins, left } = strokesFile(strokes);
    putMade(STROKES, keys, name);
    tell(byId('held'), 'It runs ..');
    const run = await runs.run(['trace', layout, STROKES], { [layout]: text, [STROKES]: keys });
    if (turn !== this.turn) return;
    if (run?.exit !== EXIT.DONE) {
      tell(byId('held'), run ? explained(run)?.words ?? run.text : 'It was stopped.', false);
      return;
    }
    this.#show(run.traced, begins + FIRST_STAMP, { edges, found, begin: strokes[0].begin });
    const presses = strokes.slice(0, strokes.length - left).filter(it => it.down).length;
    const rest = left ? ` The last ${counted(left, 'edge')} of keys are left out: a key file has at most 600 seconds and 65,536 edges.` : '';
    tell(byId('held'), `${counted(presses, 'stroke')} on ${layout}; ${STROKES} has them.${rest}${without}`);
  }

  // The wires of a run from the cycle of its first stroke on. Their first byte is drawn at `begin`, where that stroke's byte begins in
  // the capture.
  #show({ edges, bytes }, from, { edges: own, found, begin }) {
    const { chosen } = this.wave, sent = bytes.filter(it => it.begin >= from), later = begin - sent[0].begin;
    const all = Array.from({ length: edges.length }, (_, at) => edges.at(at)).filter(it => it.cycle >= from);
    const cycles = Float64Array.from(all, it => it.cycle + later), levels = Uint8Array.from(all, it => it.levels);
    const [capture, other] = sideBySide(own, new PackedEdges({ cycles, levels })), cycle = capture.at(-1).cycle + CYCLES_OF_A_MS;
    this.wave.show({ edges: capture, bytes: found.bytes, marks: found.marks, cycle });
    this.isShown = true;
    for (const id of SHOWN_BESIDE) byId(id).hidden = false;
    this.beside.show({ edges: other, bytes: sent.map(it => ({ ...it, begin: it.begin + later, end: it.end + later })), cycle });
    if (chosen) this.wave.choose(chosen);
    else this.wave.lookAt(begin);
  }
}
