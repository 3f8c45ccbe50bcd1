// What a log says in items that right programs have in common, although their times differ: with the lights at each byte, and
// without the repeats of a key that is held, if they come in time.
import { CYCLES_OF_A_MS } from '../times.js';

const DELAY = [400, 600], PERIOD = [80, 120]; // ms up to the first repeat, and from each to the next: half a second and a tenth, within a fifth
const ON_ITS_WAY = 15; // ms up to which a release may come later than a repeat would have
const BREAK_BIT = 0x80;

/** The lines of a log: each with its time, in units of the log, and its item. */
export const logLinesOf = text => text.split('\n').filter(Boolean).map(line => ({ time: Number(line.slice(0, line.indexOf(' '))), item: line.slice(line.indexOf(' ') + 1) }));

/** The items as they are. */
export const asTheyAre = lines => lines.map(it => it.item);

const portOf = item => (item.startsWith('port ') ? Number.parseInt(item.slice('port '.length), 16) : null);

/** The items with the lights at each byte that the PC reads, and at the end. */
export function withLights(lines) {
  const items = [];
  let lights = '0';
  for (const { item } of lines) {
    if (item.startsWith('lights ')) lights = item.slice('lights '.length);
    else items.push(portOf(item) === null ? item : `${item}, lights ${lights}`);
  }
  return [...items, `the end, lights ${lights}`];
}

/** The items, and the lights at the end. */
export function withLastLights(lines) {
  const last = lines.findLast(it => it.item.startsWith('lights '))?.item ?? 'lights 0';
  return [...lines.map(it => it.item).filter(item => !item.startsWith('lights ')), `the end, ${last}`];
}

/** The lines without each repeat that comes in time; one that comes at another time, or not at all, is named. `unit` is how many
    cycles one of the log's times has. The last key that went down repeats until it goes up. */
export function withoutRepeats(lines, unit) {
  const kept = [], held = { port: null, time: 0, span: DELAY, dropped: null };
  const since = time => (time - held.time) * unit / CYCLES_OF_A_MS;
  const isOver = time => {
    if (held.port !== null && since(time) > held.span[1] + ON_ITS_WAY) kept.push({ time, item: `${held.port} isn't repeated for ${held.span[1]} ms` });
    held.port = null;
  };
  for (const line of lines) {
    const { time, item } = line, port = portOf(item);
    if (port === null) {
      if (time !== held.dropped) kept.push(line);
    } else if (item === held.port) {
      if (since(time) >= held.span[0] && since(time) <= held.span[1]) held.dropped = time;
      else kept.push({ time, item: `${item} again after ${Math.round(since(time))} ms` });
      Object.assign(held, { time, span: PERIOD });
    } else {
      if (port < BREAK_BIT || portOf(held.port ?? '') === port - BREAK_BIT) isOver(time);
      if (port < BREAK_BIT) Object.assign(held, { port: item, time, span: DELAY });
      kept.push(line);
    }
  }
  return kept;
}
