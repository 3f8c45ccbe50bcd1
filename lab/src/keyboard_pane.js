// The keyboard that is drawn: real keys, the mouse and fingers press it.
import { BoardOpener, shapes } from './board_opener.js';
import { byId, fill, make, tell } from './dom.js';
import { files, named, onFile, originals } from './files.js';
import { HEIGHT, SHAPES, WIDTH, cornersOf, isWhite, keyOfCode, keysOf, legendOf, ownLegend, saidOfKey } from './places.js';
import { explained, kbd48 } from './program.js';

const TAP = 60; // ms that a key is held if its release isn't reported
const FINGER_STAYS = 140, FINGER_MOVES = 8, CLICK_AFTER = 1000; // ms after which a finger holds its key; pixels; ms
const LEAVE = 500; // ms between the two Escapes that leave the keyboard
const STICKS = new Set(['lshift', 'rshift', 'ctrl', 'alt']);
const NOTES = ['Type: what no field takes goes to the keyboard. After a click on it, all keys do. Escape twice, and Tab leaves it.',
  'Tab leaves the keyboard now, Shift and Tab go back. With any other key you go on typing.'];
const BUILT_IN = 'us84.toml';
const FEW = 20; // a layout with fewer keys is drawn as its matrix

export class KeyboardPane {
  /** `open(layout, names)` begins a live keyboard; `press(place, down)` hands it an edge; `bench(words)` shows words in the
      workbench. */
  constructor({ open, press, bench }) {
    Object.assign(this, { open, press, drawn: new Map(), held: new Map(), moved: new Map(), anew: new Set(), stuck: new Set(), hasLeft: false, opened: null });
    this.element = byId('keyboard');
    this.board = byId('board');
    this.select = byId('layout');
    fill(this.select, named('.toml'), 'us84.toml');
    onFile(({ name, isNew }) => {
      if (isNew) fill(this.select, named('.toml'), 'us84.toml');
      if (name === this.select.value) this.#changed();
    });
    byId('take-layout').onclick = () => { this.begin(); this.board.focus(); };
    this.select.onchange = () => this.begin();
    byId('restart').onclick = () => { this.begin(); this.board.focus(); };
    byId('own-legends').onchange = () => this.#legends();
    this.boards = new BoardOpener({ chosen: name => this.choose(name), bench });
    this.#listen();
    this.begin();
  }

  /** Opens the layout of a file. */
  choose(name) {
    fill(this.select, named('.toml'), name);
    this.select.value = name;
    this.begin();
  }

  /** Opens the chosen layout, if it is right. If no keyboard runs yet, the page's own layout is opened in place of a wrong one. */
  begin() {
    const name = this.select.value, fault = this.#tryToBegin(name, files[name]);
    this.#changed();
    if (fault === null) return;
    if (!this.opened) this.#tryToBegin(BUILT_IN, originals[BUILT_IN]);
    tell(byId('layout-fault'), `${fault} The keyboard has ${this.opened.text === originals[BUILT_IN] ? 'the layout that this page was made with' : this.opened.name}.`, false);
  }

  // Opens a layout's text. What is wrong with it, or null.
  #tryToBegin(name, text) {
    const said = kbd48(['compile', name], { [name]: text }), keys = said.exit === 0 ? keysOf(text) : [];
    if (said.exit !== 0) return `${name} wasn't opened: ${explained(said)?.words ?? said.text}.`;
    if (keys.length === 0) return `${name} is right, but no key of it can be drawn: the page reads keys that are tables [[key]].`;
    byId('layout-fault').hidden = true;
    this.keys = keys;
    this.opened = { name, text };
    for (const kept of [this.held, this.moved, this.anew, this.stuck]) kept.clear();
    this.#draw();
    this.open(text, new Map(this.keys.map(key => [key.place, key.name])));
    return null;
  }

  // The layout that is open may be edited; the keyboard goes on with what it was opened with.
  #changed() {
    const name = this.select.value, isOther = this.opened?.name === name && this.opened.text !== files[name];
    byId('layout-changed').hidden = !isOther;
  }

  /** Whether a key went down since the last time, and whether one went up. */
  get wentDown() { return [...this.moved.values()].includes(true); }

  get wentUp() { return [...this.moved.values()].includes(false); }

  /** Draws the keys that went down or up since the last time. A key that did both is drawn down once. One that is down anew, and
      was never drawn up, changes between two looks. */
  draw() {
    for (const [name, wentDown] of this.moved) {
      const isDown = this.held.get(name).size > 0, element = this.drawn.get(name), { classList } = element;
      element.setAttribute('aria-pressed', String(classList.toggle('down', wentDown || isDown)));
      classList.toggle('anew', (wentDown || isDown) && classList.contains('anew') !== this.anew.has(name));
      if (wentDown && !isDown) this.moved.set(name, false);
      else this.moved.delete(name);
    }
    this.anew.clear();
  }

  lamps(lights) {
    if (lights === this.lights) return;
    this.lights = lights;
    for (const lamp of document.querySelectorAll('#lamps [data-lamp]')) {
      const isOn = lamp.classList.toggle('on', (lights & lamp.dataset.lamp) !== 0);
      lamp.setAttribute('aria-label', `${lamp.textContent}: ${isOn ? 'on' : 'off'}`);
    }
  }

  // Each key where the board's file has it; else at its place on the AT's board; of a layout with few keys, in the matrix.
  #places() {
    const drawn = shapes.get(this.select.value), few = this.keys.length < FEW;
    if (drawn && this.keys.every(key => drawn[key.name])) return this.keys.map(key => drawn[key.name]);
    return this.keys.map(key => (few ? { x: key.place >> 3, y: key.place & 7, width: 1, height: 1 } : SHAPES[key.name]));
  }

  #draw() {
    const places = this.#places(), whole = places.some(it => it === SHAPES.space), corners = places.flatMap(cornersOf);
    const [left, top] = ['x', 'y'].map(way => Math.min(...corners.map(it => it[way])));
    const wide = whole ? WIDTH : Math.max(8, ...corners.map(it => it.x - left)), high = whole ? HEIGHT : Math.max(4, ...corners.map(it => it.y - top));
    this.board.style.setProperty('--rows', String(high));
    // A turned key keeps its form only where units are as high as they are wide.
    this.board.style.setProperty('--square', `${wide} / ${high}`);
    this.board.classList.toggle('square', places.some(it => it.turned));
    byId('own-legends').parentElement.hidden = !places.some(it => it.legend);
    this.drawn.clear();
    this.board.replaceChildren();
    for (const [at, key] of this.keys.entries()) {
      const { x, y, width, height, turned } = places[at], element = make('div', { className: isWhite(key.sends) ? 'white' : 'grey' });
      element.setAttribute('role', 'button');
      element.setAttribute('aria-pressed', 'false');
      element.setAttribute('aria-label', key.fn ? 'Fn' : saidOfKey(key.sends));
      const unit = 100 / wide, row = 100 / high, [right, down] = whole ? [x, y] : [x - left, y - top];
      Object.assign(element.style, {
        left: `${right * unit}%`, top: `calc(${down * row}% + 3px)`,
        width: `calc(${width * unit}% - 3px)`, height: `calc(${height * row}% - 6px)`,
      });
      // A turned key is turned about a point of the board.
      if (turned?.by) Object.assign(element.style, { transform: `rotate(${turned.by}deg)`, transformOrigin: `${(turned.x - x) * 100 / width}% ${(turned.y - y) * 100 / height}%` });
      element.dataset.key = key.name;
      this.drawn.set(key.name, element);
      this.board.append(element);
      this.#point(element, key);
    }
    this.#legends();
  }

  // What each key sends, in the layer that is selected; or what the board's file says on it, and what the PC makes of it.
  #legends() {
    const under = this.keys.some(key => key.fn && this.held.get(key.name)?.size), isOwn = byId('own-legends').checked && !under;
    byId('legends-note').hidden = byId('own-legends').parentElement.hidden || !isOwn;
    for (const key of this.keys) {
      const sends = under ? key.fnSends ?? key.sends : key.sends, own = isOwn && shapes.get(this.select.value)?.[key.name]?.legend;
      this.drawn.get(key.name).textContent = own ? ownLegend(own, sends) : key.fn ? 'Fn' : legendOf(sends);
    }
  }

  #point(element, key) {
    const sticks = STICKS.has(key.sends) || key.fn;
    let finger = null, pointed = -Infinity;
    const down = event => {
      if (sticks && (byId('sticky').checked || event.pointerType === 'touch')) {
        const isStuck = !this.stuck.delete(key.name);
        if (isStuck) this.stuck.add(key.name);
        this.hold(key.name, isStuck, 'stuck');
      } else this.hold(key.name, true, 'pointer');
    };
    const up = () => {
      this.hold(key.name, false, 'pointer');
      if (!sticks) this.#unstick();
    };
    const forget = () => {
      clearTimeout(finger?.timer);
      finger = null;
    };
    element.addEventListener('pointerdown', event => {
      this.board.focus({ preventScroll: true });
      if (event.pointerType !== 'touch') {
        event.preventDefault();
        element.setPointerCapture(event.pointerId);
        down(event);
        return;
      }
      // A finger that goes down may be about to move the page: it types when it goes up, or stays.
      const timer = setTimeout(() => {
        finger.isDown = true;
        down(event);
      }, FINGER_STAYS);
      finger = { x: event.clientX, y: event.clientY, timer, isDown: false };
    });
    element.addEventListener('pointermove', event => {
      if (finger && !finger.isDown && Math.hypot(event.clientX - finger.x, event.clientY - finger.y) > FINGER_MOVES) forget();
    });
    element.addEventListener('pointerup', event => {
      pointed = event.timeStamp;
      if (event.pointerType !== 'touch') up();
      else if (finger?.isDown) up();
      else if (finger) {
        down(event);
        setTimeout(up, TAP);
      }
      forget();
    });
    element.addEventListener('pointercancel', () => {
      if (!finger || finger.isDown) up();
      forget();
    });
    // Assistive technology clicks; a pointer was heard already.
    element.addEventListener('click', event => {
      if (event.timeStamp - pointed < CLICK_AFTER) return;
      down({ pointerType: 'touch' });
      setTimeout(up, TAP);
    });
  }

  #unstick() {
    for (const name of this.stuck) this.hold(name, false, 'stuck');
    this.stuck.clear();
  }

  /** A key is down while a hand, a pointer or the sticking has it down. */
  hold(name, down, by) {
    const key = this.keys.find(it => it.name === name);
    if (!key) return;
    const holders = this.held.get(name) ?? new Set(), was = holders.size > 0;
    this.held.set(name, holders);
    if (down) holders.add(by);
    else holders.delete(by);
    if (was === holders.size > 0) return;
    // It was up, and that isn't drawn: another look shows that it is down anew.
    if (down && this.moved.get(name) === false) this.anew.add(name);
    this.press(key.place, down);
    this.moved.set(name, down || this.moved.get(name) === true);
    if (key.fn) this.#legends();
  }

  releaseAll() {
    for (const [name, holders] of this.held) for (const by of [...holders]) this.hold(name, false, by);
    this.stuck.clear();
  }

  #listen() {
    let escaped = -Infinity;
    this.board.addEventListener('keydown', event => {
      if (event.code === 'Tab' && this.hasLeft) {
        this.#leave(false);
        return;
      }
      const name = this.#nameOf(event.code);
      if (!name) return;
      event.preventDefault();
      if (event.repeat) return;
      this.hold(name, true, event.code);
      // No release is reported of a key under Command, nor on a Mac of Caps Lock.
      if (event.metaKey || (name === 'caps' && isMac)) setTimeout(() => this.hold(name, false, event.code), TAP);
      if (event.code === 'Escape') {
        this.#leave(event.timeStamp - escaped < LEAVE);
        escaped = event.timeStamp;
      } else if (!event.code.startsWith('Shift')) this.#leave(false);
    });
    this.board.addEventListener('keyup', event => {
      const name = this.#nameOf(event.code);
      if (event.key === 'Meta') this.releaseAll();
      if (!name) return;
      event.preventDefault();
      if (name === 'caps' && isMac) {
        this.hold(name, true, event.code);
        setTimeout(() => this.hold(name, false, event.code), TAP);
      } else this.hold(name, false, event.code);
    });
    this.board.addEventListener('blur', () => {
      this.releaseAll();
      this.#leave(false);
    });
    addEventListener('blur', () => this.releaseAll());
  }

  // After two Escapes Tab goes on to what follows the keyboard, or with Shift to what is before it.
  #leave(hasLeft) {
    if (this.hasLeft === hasLeft) return;
    this.hasLeft = hasLeft;
    byId('board-note').textContent = NOTES[Number(hasLeft)];
  }

  // The layout's key that does what a real key says: the key of that name, or else one that sends it.
  #nameOf(code) {
    const wanted = keyOfCode(code);
    return (this.keys.find(key => key.name === wanted && key.sends === wanted) ?? this.keys.find(key => key.sends === wanted && !key.fn))?.name;
  }
}

const isMac = /^Mac/.test(navigator.platform);
