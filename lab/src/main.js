// The page: it starts the two modules, and shows the panes that are chosen.
import { Keyboard, Program } from '../kbd48.mjs';
import { serveRuns } from './long_runs.js';
import { answerOfBoards } from './board_opener.js';
import { isCaptureName } from './capture_pane.js';
import { byId, setHidden, setText } from './dom.js';
import { files } from './files.js';
import { fillGlossary } from './glossary.js';
import { keeping } from './keeping.js';
import { KeyboardPane } from './keyboard_pane.js';
import { LESSONS } from './lessons.js';
import { LessonsPane } from './lessons_pane.js';
import { Live } from './live.js';
import { Pc } from './pc.js';
import { ProcessorPane, isStopped } from './processor_pane.js';
import { useProgram } from './program.js';
import { runs } from './runs.js';
import { bytesOf, sharedIn, unpacked } from './share.js';
import { bring, listenToDrops } from './taking.js';
import { CYCLES_OF_A_MS } from './times.js';
import { Tour } from './tour.js';
import { watchKeys } from './where_keys_go.js';
import { WiresPane } from './wires_pane.js';
import { WorkbenchPane } from './workbench_pane.js';

const LONGEST = 200; // ms that are made up for, after a time in which the page wasn't called
// The keyboard goes on 25 times a second, or 10 times while nothing happens. A key is answered soon after it: its byte has
// passed by then.
const STRETCH = 40, CALM_STRETCH = 100, SOON = 20; // ms
// A picture costs the browser several times what a stretch costs, however little changes in it. Who types slowly has two of each
// stroke: the key that goes down and its letter; then the key that goes up, with wires and logs. Who types fast has one: a key
// that went up is drawn with the next that goes down, and so are wires and logs, once a second. If no key follows, they are
// drawn a little later. If time is slow, which somebody watches, wires and logs are drawn ten times a second.
const FAST = 240; // ms between two strokes
const BETWEEN_NEWS = 240, BETWEEN_FAST_NEWS = 900, BETWEEN_PICTURES = 160, LATEST = 100; // ms
const SAID_AFTER = 900, BETWEEN_STILLS = 1500; // ms
// Somebody who wants little motion sees a new picture of the wires now and then.
const isStill = matchMedia('(prefers-reduced-motion: reduce)');
const SELF_TEST = 135_168, TICK_MS = 5.12; // cycles until AA has been read; ms
const STROKE = 150; // ms after which a key that is down is a held one
// A key that went up is drawn after a tenth of a second at the latest, or after 150 ms if somebody types fast.
const UP_LATEST = LATEST - SOON, FAST_UP_LATEST = 150; // ms

const moduleOf = async id => unpacked(bytesOf(byId(id).textContent));

/** Says what went wrong; what still works goes on. */
function trouble(error) {
  byId('trouble-text').textContent = error.message;
  byId('trouble').hidden = false;
}
byId('trouble-gone').onclick = () => { byId('trouble').hidden = true; };
addEventListener('error', event => trouble(event.error ?? event));
addEventListener('unhandledrejection', event => trouble(event.reason));

class Lab {
  constructor(keyboard, program) {
    this.keyboard = keyboard;
    Object.assign(this, { files, answerOfBoards, keeping, program, owed: 0, drawn: -Infinity, newsDrawn: -Infinity, news: 0, since: null, upSince: null, stirred: -Infinity, pressed: -Infinity, pace: Infinity, timer: null, last: performance.now(), isPassing: false, inSight: new Set() });
    this.keys = new KeyboardPane({
      open: (layout, names) => this.open(layout, names), press: (place, down) => this.press(place, down),
      bench: words => {
        this.show('workbench', true);
        this.workbench.show(words);
      },
    });
    this.wires = new WiresPane(() => this.live, () => this.keys.opened);
    this.processor = new ProcessorPane(() => this.live);
    this.workbench = new WorkbenchPane();
    this.lessons = new LessonsPane({
      bench: (name, command) => {
        this.show('workbench', true);
        this.workbench.open(name);
        this.workbench.show(command);
      },
      processor: (name, layout, keys) => {
        this.show('processor', true);
        this.processor.choose(name, layout, keys);
      },
    });
    listenToDrops((list, target) => {
      if (target.closest('#keyboard')) this.keys.boards.take(list);
      else if (target.closest('#wires') && list.every(file => isCaptureName(file.name))) this.wires.capture.take(list);
      else {
        this.show('workbench', true);
        this.workbench.take(list);
      }
    });
    addEventListener('hashchange', () => sharedIn(location.hash).then(shared => this.takeLink(shared)).catch(trouble));
    byId('go-on').onclick = () => {
      byId('speed').value = '1';
      byId('board').focus();
    };
    for (const button of document.querySelectorAll('#panes [data-pane]')) button.onclick = () => this.show(button.dataset.pane, true);
    for (const button of document.querySelectorAll('[data-hides]')) {
      button.onclick = () => {
        this.show(button.dataset.hides, false);
        document.querySelector(`#panes [data-pane=${button.dataset.hides}]`).focus();
      };
    }
    this.tour = new Tour(name => this.show(name, true));
    fillGlossary();
    for (const button of document.querySelectorAll('button[data-pane]')) this.show(button.dataset.pane, button.getAttribute('aria-pressed') === 'true', false);
    const watch = new IntersectionObserver(entries => this.#seen(entries));
    for (const pane of [this.keys, this.wires, this.processor]) watch.observe(pane.element);
  }

  // A pane that comes into sight is drawn at once.
  #seen(entries) {
    for (const { target, isIntersecting } of entries) {
      if (isIntersecting) this.inSight.add(target.id);
      else this.inSight.delete(target.id);
    }
    this.drawKeys();
    this.draw();
  }

  /** Shows what a link carries, if it carries anything. */
  async takeLink(shared) {
    if (!shared) return;
    if ((await bring(shared.files, 'the link')).includes(byId('layout').value)) this.keys.begin();
    if (shared.lesson !== null && shared.lesson in LESSONS) {
      this.show('lessons', true);
      this.lessons.open(shared.lesson);
    } else {
      this.show('workbench', true);
      this.workbench.showShared(shared);
    }
  }

  /** Powers a keyboard on. */
  open(layout, names) {
    this.live?.history.free();
    this.live = new Live(this.keyboard, layout, names);
    this.pc = new Pc((port, byte) => this.live.order(port, byte), byId('screen'));
    this.live.onByte = byte => this.pc.byte(byte);
    this.live.onWord = word => this.pc.word(word);
    this.live.onStir = () => this.stir();
    byId('masked').checked = false;
    this.upSince = null;
    this.wires?.begin();
    this.processor?.begin();
  }

  /** A key goes down or up. */
  press(place, down) {
    const now = performance.now();
    if (down) Object.assign(this, { pace: now - this.pressed, pressed: now });
    else this.upSince ??= now;
    this.live.press(place, down);
    // Of somebody who types fast, nothing is drawn before the next key.
    if (!down && this.timer !== null && this.#isFast) this.#wait(this.#stretch);
  }

  /** Shows a pane and goes to it, or hides it. */
  show(name, shown, scrolled = true) {
    const pane = byId(name);
    pane.hidden = !shown;
    document.querySelector(`#panes [data-pane=${name}]`).setAttribute('aria-pressed', String(shown));
    if (!shown) return;
    this[name]?.shown?.();
    if (scrolled) pane.scrollIntoView({ block: 'start' });
  }

  /** Lets so many milliseconds pass for the keyboard, at the speed that is chosen. */
  pass(ms) {
    const chosen = Number(byId('speed').value), { live } = this;
    // Nobody waits for the self-test at a thousandth.
    const speed = chosen > 0 && live.stamp < SELF_TEST ? 1 : chosen;
    setHidden(byId('stopped'), speed !== 0);
    this.#sayWaiting(speed);
    this.owed += Math.min(ms, LONGEST) * CYCLES_OF_A_MS * speed;
    const cycles = Math.floor(this.owed), before = this.live.cycle;
    if (cycles > 0) {
      this.live.advance(cycles);
      this.owed -= this.live.cycle - before;
    }
    this.keys.lamps(this.keyboard.lights());
  }

  // At a slow speed a key that went down isn't seen at once.
  #sayWaiting(speed) {
    const isWaiting = speed > 0 && speed < 1 && this.live.isUnseen;
    setHidden(byId('waiting'), !isWaiting);
    if (isWaiting) setText(byId('waiting'), `The key waits for the scan: the keyboard reads its keys once in 5.12 ms, which are ${(TICK_MS / speed / 1000).toFixed(2)} s at this speed.`);
  }

  // Whether time is real.
  get #isReal() { return byId('speed').value === '1'; }

  // Whether somebody types fast, on a keyboard that is in sight.
  get #isFast() { return this.#isReal && this.inSight.has('keyboard') && this.pace <= FAST && this.last - this.pressed <= FAST; }

  // Whether it is time for a picture of the wires and the logs. It waits for a key that goes up, or down if somebody types fast. Of
  // a single stroke it isn't made with the key that goes down: the browser draws all that is between them, and a release follows.
  #isDue(isSharp, isUp) {
    const { last, live } = this, isReal = this.#isReal;
    if (live.news === this.news) return last - this.drawn >= BETWEEN_PICTURES;
    if (isStill.matches && last - this.newsDrawn < BETWEEN_STILLS) return false;
    this.since ??= last;
    const ago = last - this.newsDrawn, waited = last - this.since;
    if (this.#isFast) return isSharp && ago >= BETWEEN_FAST_NEWS;
    if (ago < (isReal ? BETWEEN_NEWS : LATEST)) return false;
    const isStroke = isSharp || (live.down.size > 0 && last - this.stirred < STROKE);
    return waited >= (isReal && isStroke ? BETWEEN_NEWS : LATEST) || (isUp && !isSharp);
  }

  /** Draws the keys and the PC's screen, if they are in sight. */
  drawKeys() {
    if (!this.inSight.has('keyboard')) return;
    this.keys.draw();
    this.pc.draw();
    this.upSince = this.keys.wentUp ? this.last : null;
  }

  // What was typed is said when nothing was typed for a while: a screen reader needn't say each letter.
  #sayTyped() {
    if (this.pc.unsaid && this.last - this.pressed > SAID_AFTER) byId('heard').textContent = this.pc.takeUnsaid();
  }

  /** Draws what changed in the other panes that are in sight. */
  draw() {
    if (this.since !== null) this.newsDrawn = this.last;
    Object.assign(this, { drawn: this.last, news: this.live.news, since: null });
    if (this.inSight.has('wires')) this.wires.draw();
    if (this.inSight.has('processor')) this.processor.draw();
  }

  // Draws what is due. A key that goes down, and what it writes on the PC's screen, is drawn now.
  #pictures() {
    const { keys, last } = this, isSeen = this.inSight.has('keyboard');
    const isSharp = isSeen && (keys.wentDown || this.pc.isNew), isUp = isSeen && keys.wentUp, isDue = this.#isDue(isSharp, isUp);
    const isUpNow = isUp && (isDue || last - this.upSince >= (this.#isFast ? FAST_UP_LATEST : UP_LATEST));
    if (isSharp || isUpNow) this.drawKeys();
    if (isDue) this.draw();
    this.#sayTyped();
  }

  // The keyboard's time goes on up to now.
  #toNow() {
    const now = performance.now(), ms = now - this.last;
    this.last = now;
    this.isPassing = true;
    try {
      this.pass(ms);
    } finally {
      this.isPassing = false;
    }
  }

  /** Something is about to be handed to the keyboard, from outside or by what it said itself. */
  stir() {
    if (this.isPassing || this.timer === null) return;
    this.#toNow();
    this.stirred = this.last;
    this.#wait(SOON);
  }

  // How long the keyboard may wait before it goes on, in ms.
  get #stretch() {
    const { last, live, upSince } = this;
    // Somebody who stopped time steps through it, and wants to see each step.
    if (isStopped()) return STRETCH;
    if (this.#isFast && live.isQuiet) return upSince === null ? CALM_STRETCH : Math.min(CALM_STRETCH, Math.max(0, upSince + FAST_UP_LATEST - last));
    return live.isCalm ? CALM_STRETCH : STRETCH;
  }

  #wait(ms) {
    clearTimeout(this.timer);
    this.timer = setTimeout(() => this.tick(), ms);
  }

  /** The keyboard goes on, and all that is drawn is drawn at once. */
  tick() {
    try {
      this.#toNow();
      this.#pictures();
    } catch (error) {
      trouble(error);
      return;
    }
    this.#wait(this.#stretch);
  }
}

async function begin() {
  const [keyboardModule, programModule] = await Promise.all(['keyboard-module', 'program-module'].map(moduleOf));
  const [keyboard, program] = await Promise.all([Keyboard.load(keyboardModule), Program.load(programModule)]);
  useProgram(program);
  runs.begin(programModule, serveRuns.name);
  keeping.begin();
  const shared = await sharedIn(location.hash).catch(error => { trouble(error); return null; });
  const lab = new Lab(keyboard, program);
  globalThis.lab = lab;
  if (!shared) byId('board').focus({ preventScroll: true });
  watchKeys();
  lab.takeLink(shared).catch(trouble);
  lab.tick();
}

await begin().catch(trouble);
