// Which key of a keymap's lowest layer is Fn: the one whose layer brings most.
import { NEEDED } from './attention.js';
import { meaningOf } from './key_codes.js';
import { Refused } from './refused.js';

const FUNCTION_KEY = /^f\d+$/;

/** What a meaning sends, its tap if it selects a layer; or null. */
const sentBy = means => (means.kind === 'momentary' ? means.tap?.key : means.kind === 'sends' ? means.key : null) ?? null;

/** What the board sends if this key is Fn: without Fn, and what the layer brings. A key that sends nothing without Fn sends nothing
    under it. */
function sentWith(fnAt, base, layers) {
  const without = base.map((means, at) => (at === fnAt ? null : sentBy(means))), under = layers[base[fnAt].layer];
  const brought = without.map((key, at) => (key === null ? null : sentBy(meaningOf(under[at])))).filter(Boolean);
  return { without: new Set(without.filter(Boolean)), brought: new Set(brought) };
}

/** How little a key is worth as Fn, most telling first: how many keys that a board needs would be lacking; how few F keys the layer
    brings; whether it brings nothing; what the key itself would lose. */
function costsOf(fnAt, base, layers) {
  const { without, brought } = sentWith(fnAt, base, layers), more = [...brought].filter(key => !without.has(key));
  const has = key => without.has(key) || brought.has(key) || (key === 'shift' && ['lshift', 'rshift'].some(it => without.has(it) || brought.has(it)));
  const { tap, lost } = base[fnAt];
  return [NEEDED.filter(key => !has(key)).length, -more.filter(key => FUNCTION_KEY.test(key)).length, Number(!more.length),
    tap ? 2 + !without.has(tap.key) : Number(Boolean(lost))];
}

function compare(one, other) {
  const at = one.findIndex((cost, place) => cost !== other[place]);
  return at < 0 ? 0 : one[at] - other[at];
}

/** The keys that may be Fn, the best first. */
export function fnCandidates(base, layers) {
  const held = [...base.keys()].filter(at => base[at].kind === 'momentary' && base[at].layer > 0 && base[at].layer < layers.length);
  return held.map(at => ({ at, costs: costsOf(at, base, layers) })).sort((a, b) => compare(a.costs, b.costs) || a.at - b.at).map(({ at }) => at);
}

/** The key that is Fn: the one that the words name, or else the best; undefined if none is. */
export function fnKey(keys, layers, base, candidates, choices) {
  if (choices.noFn) return undefined;
  if (!choices.fn) return candidates[0];
  const at = keys.findIndex(key => key.number === choices.fn);
  if (candidates.includes(at)) return at;
  const others = candidates.map(it => `--fn ${keys[it].number} (${layers[0][it]})`);
  throw new Refused(`${keys[at].where} can't be Fn: ${layers[0][at]} selects no layer while it is held; `
    + `${others.length ? `choose among ${others.join(', ')}` : 'no key of layer 0 does'}`);
}
