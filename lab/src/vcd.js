// A trace of the program: a value change dump, whose comments name the bytes.
import { BOTH, CLOCK, DATA, beginOf } from './wires.js';

const UNITS_OF_A_CYCLE = 25;
const WIRES = { c: CLOCK, d: DATA };
const TIME = '#', GOES_LOW = '0', GOES_HIGH = '1', COMMENT = '$comment', VALUE_LENGTH = 2;

/** The edges and the bytes of a trace, and its last cycle. A trace may have millions of lines, so no list of them is made. */
export function readTrace(text) {
  const edges = [], bytes = [];
  let cycle = 0, levels = BOTH, edge = null;
  for (let from = 0, end; from < text.length; from = end + 1) {
    end = text.indexOf('\n', from);
    if (end < 0) end = text.length;
    const first = text[from], wire = WIRES[text[from + 1]];
    if (first === TIME) cycle = Number(text.slice(from + 1, end)) / UNITS_OF_A_CYCLE;
    else if (wire && end - from === VALUE_LENGTH && (first === GOES_LOW || first === GOES_HIGH)) {
      levels = first === GOES_HIGH ? levels | wire : levels & ~wire;
      if (edge?.cycle === cycle) edge.levels = levels;
      else if (cycle > 0) edges.push(edge = { cycle, levels });
    } else if (text.startsWith(COMMENT, from)) {
      const [, sender, byte] = text.slice(from, end).split(' ');
      bytes.push({ begin: beginOf(edges, edges.length - 1), end: edge.cycle, sender, byte: Number.parseInt(byte, 16) });
    }
  }
  return { edges, bytes, cycle: cycle + UNITS_OF_A_CYCLE };
}
