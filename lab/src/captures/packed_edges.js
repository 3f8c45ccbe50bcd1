// Edges of the two wires, of which there may be millions: each is made when it is looked at.
import { BOTH } from '../wires.js';

export class PackedEdges {
  /** `cycles` and `levels` are arrays of the same length. */
  constructor({ cycles, levels }) { Object.assign(this, { cycles, levels, length: cycles.length }); }

  at(n) {
    const place = n < 0 ? this.length + n : n;
    return place in this.cycles ? { cycle: this.cycles[place], levels: this.levels[place] } : undefined;
  }
}

/** Two lists of edges over one time: each gets the other's cycles too, so that both are drawn with the same stretches. */
export function sideBySide(one, other) {
  const lists = [one, other], next = [0, 0], now = [BOTH, BOTH];
  const cycles = new Float64Array(one.length + other.length), levels = lists.map(() => new Uint8Array(cycles.length));
  let many = 0;
  for (; next.some((at, n) => at < lists[n].length); many++) {
    cycles[many] = Math.min(...lists.map((list, n) => list.cycles[next[n]] ?? Infinity));
    for (const [n, list] of lists.entries()) {
      if (list.cycles[next[n]] === cycles[many]) now[n] = list.levels[next[n]++];
      levels[n][many] = now[n];
    }
  }
  return levels.map(own => new PackedEdges({ cycles: cycles.subarray(0, many), levels: own.subarray(0, many) }));
}
