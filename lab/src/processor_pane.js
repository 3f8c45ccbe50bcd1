// The processor, step by step: a program on the board, under a layout and a key file.
import { byId, fill, hex, make, scrollToEnd, setText, tell } from './dom.js';
import { files, named, onFile } from './files.js';
import { FIRST_STAMP } from './times.js';
import { LiveSession } from './live_session.js';
import { explained, kbd48 } from './program.js';
import { InSight } from './in_sight.js';
import { FOREVER, Session } from './session.js';
import { listLines, placeOf, sourceLines } from './source.js';
import { StateTables } from './state_tables.js';

const KERNEL = 'kernel.asm';
const STOPS = ['place', 'register', 'cell', 'byte']; // the probes, by their numbers
// How the other breakpoints are written: what is looked at, and the byte that it must have.
const FORMS = {
  register: /^R([0-7])\s*=\s*([0-9A-F]{2})$/i,
  cell: /^([0-7][0-9A-F])\s*=\s*([0-9A-F]{2})$/i,
  byte: /^(keyboard|host|PC)\s+([0-9A-F]{2})$/i,
};
const LIVE_ONE = 'the keyboard that I type on', RUNS = 'it runs; Step stops its time';
const LOOKS_APART = 300; // ms between two pictures of a keyboard that runs
const STRIDES_APART = 30; // ms
const MOST_STRIDES = 8, LIVE_STRIDE = 20000;
const A_SECOND = 220000; // steps

export class ProcessorPane {
  /** `live()` answers the keyboard that runs. */
  constructor(live) {
    this.element = byId('processor');
    this.live = live;
    this.looked = 0;
    this.timer = null;
    this.chosen = null;
    this.tables = new StateTables();
    this.sight = new InSight(byId('code'));
    this.#fill();
    onFile(({ name, isNew }) => {
      if (isNew) this.#fill();
      if (this.#isLive() || !this.#files().includes(name) || !this.session) return;
      this.session = null;
      tell(byId('program-fault'), `${name} was changed: Power on takes it as it is now`, false);
    });
    for (const id of ['program', 'program-layout', 'program-keys']) byId(id).onchange = () => this.open();
    byId('power').onclick = () => this.open();
    byId('step').onclick = () => {
      this.#halt();
      this.#go(1, []);
    };
    byId('back').onclick = () => this.#back();
    byId('over').onclick = () => this.#over();
    byId('cursor').onclick = () => {
      this.#halt();
      if (this.chosen === null) tell(byId('at'), 'choose a line of the program first', false);
      else this.#go(this.#far(), [`arm 0 ${hex(this.chosen, 3)} 00`]);
    };
    byId('run').onclick = () => (this.timer ? this.#halt() : this.#run());
    byId('goto').onchange = ({ target }) => { if (/^\d{1,9}$/.test(target.value)) this.#to(Number(target.value)); };
    byId('code').addEventListener('click', event => this.#choose(event.target));
    byId('code').addEventListener('dblclick', event => {
      this.#choose(event.target);
      this.#stopHere();
    });
    byId('stop-place').oninput = () => this.#mark();
    byId('code').addEventListener('keydown', event => {
      if (event.key === 'Enter') this.#stopHere();
      const by = { ArrowDown: 1, ArrowUp: -1 }[event.key];
      if (!by) return;
      event.preventDefault();
      this.#chooseNext(by);
    });
  }

  #isLive() { return byId('program').value === LIVE_ONE; }

  #files() { return [byId('program').value, byId('program-layout').value, byId('program-keys').value]; }

  // As far as one looks for a place: a run of a key file has an end, the keyboard that runs has none.
  #far() { return this.#isLive() ? A_SECOND : FOREVER; }

  #fill() {
    fill(byId('program'), [LIVE_ONE, ...named('.asm', '.hex', '.toml')], 'four_keys.asm');
    fill(byId('program-layout'), named('.toml'), 'four_keys.toml');
    fill(byId('program-keys'), named('.keys'), 'four_keys.keys');
  }

  /** Opens this program, layout and key file, all files of the page. */
  choose(program, layout, keys) {
    this.#fill();
    for (const [id, name] of Object.entries({ program, 'program-layout': layout, 'program-keys': keys })) byId(id).value = name;
    this.open();
  }

  /** The pane is shown. */
  shown() {
    if (!this.session) this.open();
  }

  /** Another keyboard runs. */
  begin() { if (this.#isLive()) this.open(); }

  /** A picture of the keyboard that runs, now and then. */
  draw() {
    const now = performance.now();
    if (!this.#isLive() || !this.session || isStopped() || now - this.looked < LOOKS_APART) return;
    this.looked = now;
    this.#now(this.session.now());
    setText(byId('at'), RUNS);
  }

  /** Begins a session at power-on. */
  open() {
    this.#halt();
    const name = byId('program').value, how = name.endsWith('.asm') ? 'asm' : name.endsWith('.toml') ? 'compile' : null;
    for (const id of ['program-layout', 'program-keys', 'goto', 'power']) byId(id).disabled = this.#isLive();
    if (this.#isLive()) {
      this.session = new LiveSession(this.live());
      this.code = sourceLines(files[KERNEL]);
      this.before = null;
      tell(byId('program-fault'), '');
      tell(byId('at'), isStopped() ? wordsOf(this.session.state) : RUNS);
      this.#list();
      this.#show();
      return;
    }
    const made = how ? kbd48([how, name]) : { exit: 0, text: files[name] };
    try {
      if (made.exit !== 0) throw new Error(explained(made)?.words ?? made.text);
      this.session = new Session(made.text, files[byId('program-layout').value], files[byId('program-keys').value], () => this.#show());
      this.code = how === 'asm' ? sourceLines(files[name]) : how === 'compile' ? sourceLines(files[KERNEL])
        : listLines(kbd48(['list', name]).text);
      tell(byId('program-fault'), '');
    } catch (refused) {
      this.session = null;
      this.code = { lines: [], labels: new Map() };
      tell(byId('program-fault'), refused.message, false);
    }
    this.before = null;
    this.chosen = null;
    tell(byId('at'), this.session ? wordsOf(this.session.state) : '');
    this.#list();
    this.#show();
  }

  // The probes that the breakpoints ask for, in the order of their numbers, or null if one of them is wrong.
  #stops() {
    const arms = [];
    for (const [probe, kind] of STOPS.entries()) {
      const field = byId(`stop-${kind}`), said = field.value.trim();
      const arm = said === '' ? '' : this.#arm(kind, said);
      field.setAttribute('aria-invalid', String(arm === null));
      if (arm === null) {
        tell(byId('at'), `the breakpoint ${said} isn't understood`, false);
        return null;
      }
      if (arm) arms.push(`arm ${probe} ${arm}`);
    }
    return arms;
  }

  #arm(kind, said) {
    if (kind === 'place') {
      const place = placeOf(said, this.code.labels);
      return place === null ? null : `${hex(place, 3)} 00`;
    }
    const found = FORMS[kind].exec(said);
    if (!found) return null;
    const first = kind === 'byte' ? Number(found[1].toLowerCase() !== 'keyboard') : Number.parseInt(found[1], 16);
    return `${hex(first, 3)} ${found[2]}`;
  }

  // A keyboard that runs stops for it.
  #go(most, arms, on = false) {
    if (!this.session) return null;
    this.#stopTime();
    const gone = on ? this.session.goOn(most, arms) : this.session.go(most, arms);
    this.#now(gone.state);
    const words = wordsOf(gone.state);
    tell(byId('at'), gone.hit !== null ? `${words}: stopped at ${STOPS[gone.hit]}` : gone.ended ? `${words}: the run has ended` : words);
    return gone;
  }

  #stopTime() {
    if (!this.#isLive() || isStopped()) return;
    byId('speed').value = STOPPED;
    this.session.state = this.session.now();
  }

  #to(steps) {
    if (!this.session) return;
    this.#halt();
    this.#now(this.session.at(steps));
    tell(byId('at'), wordsOf(this.session.state));
  }

  #back() {
    if (!this.session) return;
    this.#halt();
    this.#stopTime();
    const state = this.session.back(), isFirst = state.cycles === this.session.state.cycles;
    this.#now(state);
    tell(byId('at'), isFirst ? `${wordsOf(state)}: nothing before it is kept` : wordsOf(state));
  }

  #now(state) {
    this.before = this.session.state;
    this.session.state = state;
    this.#show();
  }

  // A call is over when the place after it is reached.
  #over() {
    if (!this.session) return;
    this.#halt();
    const { counter } = this.session.state, line = this.code.lines.find(it => it.place === counter);
    if (/\bCALL\b/i.test(line?.text ?? '')) this.#go(this.#far(), [`arm 0 ${hex(counter + 2, 3)} 00`]);
    else this.#go(1, []);
  }

  #run() {
    const arms = this.#stops(), pace = Number(byId('pace').value);
    if (!arms || !this.session) return;
    byId('run').setAttribute('aria-pressed', 'true');
    byId('run').textContent = 'Halt';
    // A screen reader needn't say each place that the run passes.
    byId('at').setAttribute('aria-live', 'off');
    // At a pace each picture is a round number of steps later, so that many of them come of one run.
    // The keyboard that runs has no end, so the page must be able to halt it.
    const [longest, most] = this.#isLive() ? [LIVE_STRIDE, 1] : [FOREVER, MOST_STRIDES];
    const stride = Math.min(longest, pace >= FOREVER ? FOREVER : Math.max(1, Math.round(pace * STRIDES_APART / 1000)));
    let last = performance.now(), owed = stride;
    const tick = () => {
      const now = performance.now();
      owed += Math.min(now - last, 250) / 1000 * pace;
      owed = Math.min(owed, (most + 1) * stride);
      last = now;
      for (let strides = Math.min(Math.floor(owed / stride), most); strides > 0; strides--) {
        owed -= stride;
        const gone = this.#go(stride, arms, true);
        if (!gone || gone.hit !== null || gone.ended) {
          this.#halt();
          return;
        }
      }
      this.timer = setTimeout(tick, STRIDES_APART);
    };
    this.timer = setTimeout(tick, 0);
  }

  #halt() {
    clearTimeout(this.timer);
    this.timer = null;
    byId('run').setAttribute('aria-pressed', 'false');
    byId('run').textContent = 'Run';
    const where = byId('at');
    if (where.getAttribute('aria-live') !== 'off') return;
    // Where it has halted is said.
    where.removeAttribute('aria-live');
    where.replaceChildren(where.textContent);
  }

  #choose(element) {
    const place = element.closest?.('[data-place]')?.dataset.place;
    if (place === undefined) return;
    this.chosen = Number(place);
    this.#mark();
  }

  #chooseNext(by) {
    const places = this.code.lines.map(line => line.place).filter(place => place !== null).sort((a, b) => a - b);
    const at = places.indexOf(this.chosen ?? this.session?.state.counter);
    this.chosen = places[Math.min(places.length - 1, Math.max(0, at + by))] ?? null;
    this.#mark();
    this.rows.get(this.chosen)?.scrollIntoView({ block: 'nearest' });
  }

  // The breakpoint on a place is the chosen line's, or is gone if it was.
  #stopHere() {
    const place = this.chosen === null ? '' : hex(this.chosen, 3);
    byId('stop-place').value = byId('stop-place').value === place ? '' : place;
    this.#mark();
  }

  #list() {
    this.rows = new Map();
    this.numbers = new Map();
    this.marked = {};
    byId('code').replaceChildren(...this.code.lines.map(({ text, place }, number) => {
      const row = make('div', { textContent: `${place === null ? '   ' : hex(place, 3)}  ${text}` });
      if (place !== null) {
        row.dataset.place = place;
        row.id = `place-${place}`;
        row.setAttribute('role', 'option');
        row.setAttribute('aria-selected', 'false');
        this.rows.set(place, row);
        this.numbers.set(place, number);
      }
      return row;
    }));
  }

  // The rows of the program counter, of the cursor and of the breakpoint. Only those that change are touched: there are many.
  #mark() {
    const now = { here: this.session?.state.counter, chosen: this.chosen, stop: placeOf(byId('stop-place').value.trim(), this.code.labels) };
    for (const [name, place] of Object.entries(now)) {
      if (place === this.marked[name]) continue;
      for (const [other, on] of [[this.marked[name], false], [place, true]]) {
        const row = this.rows.get(other);
        row?.classList.toggle(name, on);
        if (name === 'chosen') row?.setAttribute('aria-selected', String(on));
      }
      this.marked[name] = place;
    }
    if (this.rows.has(this.chosen)) byId('code').setAttribute('aria-activedescendant', `place-${this.chosen}`);
    else byId('code').removeAttribute('aria-activedescendant');
  }

  #show() {
    for (const id of ['back', 'step', 'over', 'cursor', 'run']) if (byId(id).disabled === Boolean(this.session)) byId(id).disabled = !this.session;
    this.#mark();
    if (!this.session) return;
    const { state, log } = this.session;
    if (this.numbers.has(state.counter)) this.sight.show(this.numbers.get(state.counter));
    this.tables.show(state, this.before);
    const said = byId('said'), lines = log.join('\n');
    if (said.textContent === lines) return;
    said.textContent = lines;
    scrollToEnd(said);
  }
}

/** Where a state is. */
function wordsOf({ steps, cycles }) {
  const at = `cycle ${cycles}, stamp ${cycles - FIRST_STAMP}`;
  return steps === null ? at : `step ${steps}, ${at}`;
}

// The time of the keyboard that one types on.
const STOPPED = '0';
export const isStopped = () => byId('speed').value === STOPPED;
