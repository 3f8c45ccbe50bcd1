// A capture of real wires in the pane of the wires: how it is opened, what is found in it, and its faults one by one.
import { kindOfFile } from './boards/file_kinds.js';
import { PackedEdges } from './captures/packed_edges.js';
import { byId, setText, tell } from './dom.js';
import { files } from './files.js';
import { CYCLES_OF_A_MS } from './times.js';
import { LongText } from './long_text.js';
import { Screen } from './pc.js';
import { explained } from './program.js';
import { EXIT } from './refusals.js';
import { RightKeyboard } from './right_keyboard.js';
import { runs } from './runs.js';

const MOST_OF_A_CAPTURE = 256 << 20, BEGINNING = 64; // bytes
const DRAGGED = 5; // pixels
const ZIP = 'it is a ZIP archive', SESSION = 'if it is a session of sigrok, `sigrok-cli -i FILE -O vcd` makes a dump of it';

/** Whether a file is a capture, by its name. */
export const isCaptureName = name => /\.(vcd|csv|sr)$/i.test(name);

export class CapturePane {
  /** `wave` draws the wires; `opened()` answers the layout that the keyboard has, { name, text }; `show(name)` chooses a capture,
      or none if the name is null. */
  constructor({ wave, opened, show }) {
    Object.assign(this, { wave, show, taken: new Map(), name: null, captured: null, turn: 0 });
    this.text = new LongText(byId('found'));
    this.right = new RightKeyboard(wave, opened);
    wave.onDrawn = () => this.#sayTimes();
    byId('open-capture').onchange = ({ target }) => {
      const list = [...target.files];
      target.value = '';
      this.take(list);
    };
    byId('capture-clock').onchange = ({ target }) => this.#choose({ clock: Number(target.value) });
    byId('capture-data').onchange = ({ target }) => this.#choose({ data: Number(target.value) });
    byId('capture-exchange').onclick = () => this.#open({ clock: this.captured.data, data: this.captured.clock });
    byId('fault-before').onclick = () => this.#step(-1);
    byId('fault-next').onclick = () => this.#step(1);
    byId('hold-against').onclick = () => this.right.hold({ name: this.name, edges: this.edges, found: this.captured.found });
    this.#listen(byId('wave'));
  }

  // A click on a mark says its sentence. What ends a drag is no click.
  #listen(canvas) {
    let pressed = 0;
    canvas.addEventListener('pointerdown', event => { pressed = event.clientX; });
    canvas.addEventListener('click', event => {
      const mark = this.captured && Math.abs(event.clientX - pressed) < DRAGGED && this.wave.markAt(event.offsetX);
      if (mark) this.#mark(mark);
    });
  }

  /** The names of the captures that were taken from the user's system. */
  get names() { return [...this.taken.keys()]; }

  has(name) { return this.taken.has(name) || (isCaptureName(name) && name in files); }

  /** Takes captures of the user's system, and shows the last of them. What can't be taken is said. */
  async take(list) {
    for (const file of list) {
      try {
        await judgeFile(file);
        this.taken.set(file.name, file);
        this.show(file.name);
      } catch (fault) {
        this.show(null);
        byId('capture').hidden = false;
        this.#head(file.name, fault.message, false);
      }
    }
  }

  /** Shows a capture, or none. */
  open(name) {
    this.turn++;
    Object.assign(this, { captured: null, name });
    this.right.hide();
    for (const id of ['capture', 'capture-body']) byId(id).hidden = true;
    if (name !== null) this.#open(null);
  }

  #head(name, text, right) {
    setText(byId('capture-head'), `The capture ${name}`);
    tell(byId('capture-told'), text, right);
  }

  // Reads the capture with these signals, or with those that are guessed.
  async #open(chosen) {
    const { name } = this, turn = ++this.turn, file = this.taken.get(name) ?? new Blob([files[name]]);
    byId('capture').hidden = false;
    this.#head(name, 'It is read ..');
    let captured;
    try {
      captured = await runs.capture({ file, name, chosen });
    } catch (fault) {
      captured = { refused: `the browser can't read it: ${fault.message}` };
    }
    if (turn !== this.turn) return;
    if (!captured) this.#head(name, 'It was stopped.', false);
    else if (captured.refused || captured.failed) this.#head(name, captured.refused ?? explained(captured).words, false);
    else this.#showAll({ ...captured, told: chosen ? [] : captured.told });
  }

  #showAll(captured) {
    const { names, clock, data, text, cycles, levels, found } = captured, { bytes, marks, words } = found;
    this.captured = captured;
    this.edges = new PackedEdges({ cycles, levels });
    this.#sayHow(captured);
    this.right.hide();
    for (const [id, chosen] of [['capture-clock', clock], ['capture-data', data]]) {
      byId(id).replaceChildren(...names.map((it, at) => new Option(it, at)));
      byId(id).value = String(chosen);
    }
    byId('capture-body').hidden = names.length < 2;
    this.text.show(text);
    showWords(words);
    this.wave.show({ edges: this.edges, bytes, marks, cycle: (this.edges.at(-1)?.cycle ?? 0) + CYCLES_OF_A_MS });
    this.wave.lookAt((marks[0] ?? bytes[0])?.begin ?? 0);
    for (const id of ['fault-before', 'fault-next']) byId(id).disabled = !marks.length;
    setText(byId('fault-text'), saysOfMarks(found));
  }

  // How the signals were guessed, whether it is another kind of keyboard, and the fault of a dump that has one.
  #sayHow({ told, exit, text, found }) {
    const isRight = exit === EXIT.DONE, sentences = [...told];
    if (found.isOfSet1) sentences.push('These are codes of set 1: it is an XT keyboard, which no AT reads');
    if (!isRight) {
      const words = explained({ exit, text })?.words ?? text.trimEnd(), isFirstLine = text.indexOf('\n') === text.length - 1;
      sentences.push(isFirstLine ? words : `${words}; what was found before it is shown`);
    }
    this.#head(this.name, sentences.map(it => `${it}.`).join(' '), isRight ? undefined : false);
  }

  // A signal was chosen. If it is the other one's, the two are exchanged.
  #choose(other) {
    const { clock, data } = this.captured, chosen = { clock, data, ...other };
    this.#open(chosen.clock === chosen.data ? { clock: data, data: clock } : chosen);
  }

  #step(by) {
    const { marks } = this.captured.found, at = marks.indexOf(this.wave.chosen);
    const next = at < 0 ? Math.min(0, by) : at + by;
    this.#mark(marks.at(next % marks.length));
  }

  // Goes to a mark, and says its sentence.
  #mark(mark) {
    const { marks } = this.captured.found;
    this.wave.choose(mark);
    setText(byId('fault-text'), `${marks.indexOf(mark) + 1} of ${marks.length}, at ${msOf(mark.begin)} ms: ${mark.sentence}`);
  }

  #sayTimes() {
    const { from, to } = this.wave.seen;
    setText(byId('capture-at'), this.captured ? `${msOf(from)} to ${msOf(to)} ms` : '');
  }
}

// Refuses a file with another ending, one that is too long for this page, and one whose first bytes say that it is no text.
async function judgeFile(file) {
  if (!isCaptureName(file.name)) throw new Error('its name doesn\'t end in .vcd or .csv');
  if (file.size > MOST_OF_A_CAPTURE) {
    const size = Math.ceil(file.size / (1 << 20));
    throw new Error(`it has ${size} MB; this page reads at most 256 MB, and kbd48 capture on a command line less than 4 GB`);
  }
  const kind = kindOfFile(new Uint8Array(await file.slice(0, BEGINNING).arrayBuffer()), file.name);
  if (kind) throw new Error(kind.startsWith(ZIP) ? `${ZIP}; ${SESSION.replace('FILE', file.name)}` : kind);
}

// What the words that INT 09h entered put on a PC's screen.
function showWords(words) {
  const screen = new Screen(byId('captured-screen'));
  for (const word of words) screen.put(word & 0xFF);
  screen.draw();
}

function saysOfMarks({ marks: { length: many }, unmarked }) {
  if (!many) return 'Nothing is marked.';
  const all = many + unmarked, said = `${all} place${all === 1 ? ' is' : 's are'} marked`;
  return unmarked ? `${said}, the first ${many} of them in the picture.` : `${said}.`;
}

const msOf = cycle => (cycle / CYCLES_OF_A_MS).toFixed(3);
