// The two wires as a picture. Time goes from left to right; while nothing changes for long, it is cut short and dashed.
import { CLOCK, DATA, PC_SIDE, firstFrom } from './wires.js';
import { hex } from './dom.js';

const LONG = 96; // cycles
const TOP = { [CLOCK]: 24, [DATA]: 78 }, SWING = 30, UNDERLINE = 122, LABELS = 132, EDGE = 4; // pixels
const COLOURS = { ground: '#10201a', wire: '#7dffb0', gap: '#4fa878', name: '#b9e8cd', keyboard: '#ffd866', host: '#8fc7ff', fault: '#ff8a80', chosen: '#ffffff' };
const THIN = 1.5, THICK = 3, DASH = 2, DASHES_APART = 6; // pixels
const LEAST_ZOOM = 0.125, MOST_ZOOM = 8;
const AT_RIGHT = 10, MARK_HEIGHT = 6, LEAST_MARK = 5, NEAR_MARK = 6; // pixels

export class Waveform {
  /** `source()` answers { edges, bytes, cycle, marks }: each edge has a cycle and the levels after it, and who pulls which wire, if
      that is known. Of edges it needs `length` and `at`. Marks, if there are any, have a begin and an end each. */
  constructor(canvas, source) {
    Object.assign(this, { canvas, source, zoom: 0.5, back: 0, right: 0, aim: null, chosen: null, shown: null, size: [0, 0] });
    /** It hears when somebody has moved or zoomed the picture, and when another part of it is drawn. */
    Object.assign(this, { onMoved: () => {}, onDrawn: () => {} });
    // The browser says the size; it isn't asked for each picture, since it may have to lay the page out for the answer.
    new ResizeObserver(([{ contentRect: { width, height } }]) => {
      this.size = [width, height];
      this.draw();
    }).observe(canvas);
    // A wheel without Shift or Ctrl scrolls the page, as it does everywhere.
    canvas.addEventListener('wheel', event => {
      const isSideways = Math.abs(event.deltaX) > Math.abs(event.deltaY);
      if (!event.ctrlKey && !event.shiftKey && !isSideways) return;
      event.preventDefault();
      if (event.ctrlKey) this.zoomBy(event.deltaY < 0 ? 2 : 0.5);
      else this.move(isSideways ? event.deltaX : -event.deltaY);
    }, { passive: false });
    canvas.addEventListener('pointermove', event => { if (event.buttons) this.move(event.movementX); });
    canvas.addEventListener('keydown', event => {
      const act = {
        ArrowLeft: () => this.move(80), ArrowRight: () => this.move(-80), '+': () => this.zoomBy(2), '-': () => this.zoomBy(0.5),
      }[event.key];
      if (!act) return;
      event.preventDefault();
      act();
    });
  }

  /** Goes back in time by so many pixels; on, if negative. */
  move(pixels) {
    this.back = this.shown ? this.back + pixels : Math.max(0, this.back + pixels);
    this.draw();
    this.onMoved();
  }

  zoomBy(factor) {
    this.zoom = Math.min(MOST_ZOOM, Math.max(LEAST_ZOOM, this.zoom * factor));
    // What is in the middle of a picture that stays, stays there.
    const middle = this.shown && [...this.places ?? []].find(([, x]) => x <= this.size[0] / 2);
    if (middle) this.#aimAt(middle[0]);
    this.draw();
    this.onMoved();
  }

  /** Shows the place of a mark, and that it is the chosen one. */
  choose(mark) {
    this.chosen = mark;
    this.lookAt(mark.begin);
  }

  /** Brings a cycle into the middle, as far as there is something on both sides. */
  lookAt(cycle) {
    this.#aimAt(cycle);
    this.draw();
    this.onMoved();
  }

  #aimAt(cycle) { this.aim = firstFrom(this.shown.edges, cycle, it => it.cycle); }

  /** Shows the part that another picture of the same stretches shows. */
  follow({ zoom, back, right, aim }) {
    Object.assign(this, { zoom, back, right, aim });
    this.draw();
  }

  /** The mark at so many pixels from the left, or undefined. */
  markAt(x) {
    return this.#seenMarks().findLast(({ begin, end }) => {
      const left = this.places.get(begin), right = Math.max(left, this.places.get(end) ?? this.size[0]);
      return x >= left - NEAR_MARK && x <= right + NEAR_MARK;
    });
  }

  /** Keeps what is shown now, whatever passes. */
  set paused(paused) {
    const { edges, bytes, cycle } = this.source();
    this.show(paused ? { edges: [...edges], bytes: [...bytes], cycle } : null);
  }

  /** Shows these edges and bytes, or again what passes. */
  show(shown) {
    Object.assign(this, { shown, back: 0, right: shown ? Math.max(0, shown.edges.length - 1) : 0, aim: null, chosen: null });
    this.drawn = '';
    this.draw();
  }

  draw() {
    const { canvas, size: [width, height] } = this, scale = globalThis.devicePixelRatio || 1;
    if (!width) return;
    const { edges, bytes, cycle } = this.shown ?? this.source(), last = edges.at(-1)?.cycle ?? 0;
    this.#settle(edges, cycle, width);
    // While nothing passes the picture stays.
    const drawn = [last, Math.min(cycle - last, LONG), bytes.length, this.zoom, this.back, this.right, this.chosen?.begin, width, height, scale].join();
    if (drawn === this.drawn) return;
    this.drawn = drawn;
    const across = Math.round(width * scale), down = Math.round(height * scale);
    if (canvas.width !== across) canvas.width = across;
    if (canvas.height !== down) canvas.height = down;
    // A picture that nothing shines through costs the browser less.
    const pen = canvas.getContext('2d', { alpha: false });
    pen.setTransform(scale, 0, 0, scale, 0, 0);
    pen.fillStyle = COLOURS.ground;
    pen.fillRect(0, 0, width, height);
    this.#stretches(edges, cycle, width, stretch => drawStretch(pen, stretch));
    this.#labels(pen, bytes);
    this.#marks(pen);
    pen.fillStyle = COLOURS.name;
    pen.font = '12px system-ui, sans-serif';
    pen.fillText('clock', 6, TOP[CLOCK] - 8);
    pen.fillText('data', 6, TOP[DATA] - 8);
    this.onDrawn();
  }

  // A picture that stays is drawn from the stretch at its right edge on, so that all of its places are equally cheap: `right` is the
  // number of the edge at which that stretch begins, and its end is `back` pixels outside. `aim` is an edge that comes into the middle.
  #settle(edges, cycle, width) {
    if (!this.shown || !edges.length) {
      this.right = edges.length - 1;
      return;
    }
    const wide = n => Math.min(LONG, (edges.at(n + 1)?.cycle ?? cycle) - edges.at(n).cycle) * this.zoom;
    if (this.aim !== null) {
      this.right = Math.min(this.aim, edges.length - 1);
      this.back = wide(this.right) + AT_RIGHT - width / 2;
      this.aim = null;
    }
    for (; this.right > 0 && this.back - AT_RIGHT > wide(this.right); this.right--) this.back -= wide(this.right);
    while (this.back < 0 && this.right < edges.length - 1) this.back += wide(++this.right);
    this.back = Math.max(0, this.right === 0 ? Math.min(this.back, wide(0)) : this.back);
  }

  // From the right end to the left: the stretches between two edges, each with its levels and those before it.
  #stretches(edges, cycle, width, each) {
    let x = width - AT_RIGHT + this.back, last = edges.at(this.right + 1)?.cycle ?? cycle;
    this.places = new Map();
    this.seen = { from: last, to: last };
    for (let n = this.right; x > 0; n--) {
      const { cycle: from, levels, pulls } = n >= 0 ? edges.at(n) : { cycle: last - LONG - 1, levels: CLOCK | DATA };
      if (n >= 0) this.seen.from = from;
      const cut = last - from > LONG, wide = n < 0 ? x : (cut ? LONG : last - from) * this.zoom;
      this.places.set(from, x - wide);
      // On whole pixels two stretches meet without a seam.
      if (x - wide < width) each({ left: Math.round(x - wide), right: Math.round(Math.min(x, width)), levels, pulls, before: n > 0 ? edges.at(n - 1).levels : CLOCK | DATA, cut });
      x -= wide;
      last = from;
    }
    if (x > 0) this.back = 0;
  }

  // Each byte below its frame, which is underlined in a capture; if there is room, with its way.
  #labels(pen, bytes) {
    pen.font = '600 13px system-ui, sans-serif';
    for (let n = this.#lastSeen(bytes); n >= 0; n--) {
      const { begin, end, sender, byte, fault } = bytes[n], left = this.places.get(begin), right = this.places.get(end);
      if (end < this.seen.from) break;
      const x = left ?? EDGE, room = (right ?? Infinity) - x, colour = fault ? COLOURS.fault : COLOURS[sender];
      if (this.shown?.marks) {
        pen.fillStyle = colour;
        pen.fillRect(x, UNDERLINE, Math.min(room, this.size[0] - x), 1);
      }
      const value = `${hex(byte)}${fault ? ' ✗' : ''}`;
      const text = [sender === 'host' ? `PC → ${value}` : `${value} → PC`, value].find(it => pen.measureText(it).width <= room);
      if (text === undefined) continue;
      pen.fillStyle = colour;
      pen.fillText(text, x, LABELS + 8);
    }
  }

  // The place of the last of these that begins before the right end; it may be -1.
  #lastSeen(list) { return this.shown ? firstFrom(list, this.seen.to, it => it.begin) - 1 : list.length - 1; }

  #seenMarks() {
    const marks = this.shown?.marks ?? [], after = this.#lastSeen(marks) + 1;
    return marks.slice(firstFrom(marks, this.seen.from, it => it.begin), after);
  }

  // What is marked: a bar above its stretch, and a line down to the wires where it begins.
  #marks(pen) {
    for (const mark of this.#seenMarks()) {
      const x = this.places.get(mark.begin);
      if (x === undefined) continue;
      pen.fillStyle = mark === this.chosen ? COLOURS.chosen : COLOURS.fault;
      pen.fillRect(Math.round(x), 0, Math.max(LEAST_MARK, (this.places.get(mark.end) ?? this.size[0]) - x), MARK_HEIGHT);
      pen.fillRect(Math.round(x), 0, 1, LABELS - AT_RIGHT);
    }
  }
}

/** Who pulls a wire: the keyboard, the PC (`host`), both, or nobody. */
export function pullersOf(wire, pulls = 0) {
  return [...(pulls & wire ? ['keyboard'] : []), ...(pulls & wire << PC_SIDE ? ['host'] : [])];
}

// Draws a stretch. Its lines are level or upright, so each is a rectangle: that is much cheaper than a stroke.
function drawStretch(pen, { left, right, levels, pulls, before, cut }) {
  const level = (colour, wide, y) => {
    pen.fillStyle = colour;
    if (!cut) pen.fillRect(left, y - wide / 2, right - left, wide);
    else for (let x = right; x > left; x -= DASHES_APART) pen.fillRect(Math.max(left, x - DASH), y - wide / 2, Math.min(DASH, x - left), wide);
  };
  for (const wire of [CLOCK, DATA]) {
    const y = TOP[wire] + (levels & wire ? 0 : SWING), pullers = pullersOf(wire, pulls);
    if (pullers.length === 0) level(cut ? COLOURS.gap : COLOURS.wire, THIN, y);
    // Both sides' pulls have a line each, the PC's below the keyboard's.
    pullers.forEach((puller, n) => level(COLOURS[puller], THICK, y + n * (THICK + 1)));
    if (!((levels ^ before) & wire)) continue;
    pen.fillStyle = COLOURS.wire;
    pen.fillRect(left - THIN / 2, TOP[wire], THIN, SWING);
  }
}
