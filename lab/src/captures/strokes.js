// From the bytes of a capture to the strokes of keys, as a key file for a keyboard of this page.

const BREAK_PREFIX = 0xF0, EXTENDED = [0xE0, 0xE1], RESEND = 0xFE;
// What a keyboard sends that is no key's: it answers, or says how its test ended.
const NO_KEYS = new Set([0x00, 0xAA, 0xEE, 0xFA, 0xFC, 0xFE, 0xFF]);
// Stamps: of the first stroke, when the self-test is over; and from the last one to the end.
const BEGINS = 163_840, AFTER = 40_000;
// What a key file's history keeps: two edges of one key, and the first and the fifth in a row, are so far apart.
const APART = 2240, IN_A_ROW = 4;
const MOST_EDGES = 65_536, LATEST_STAMP = 240_000_000;

/** The codes that the keyboard sent, { begin, byte }: of its right frames, those that weren't asked for again. */
function sentCodes(bytes) {
  const codes = [];
  let isAsked = false, wasRight = false;
  for (const { begin, sender, byte, fault } of bytes) {
    if (sender === 'host') {
      isAsked = !fault && byte === RESEND;
      continue;
    }
    if (isAsked && wasRight) codes.pop();
    isAsked = false;
    wasRight = !fault;
    if (wasRight) codes.push({ begin, byte });
  }
  return codes.filter(({ byte }) => !NO_KEYS.has(byte));
}

/** The edges of the keys, { begin, name, down }, by the codes of set 2; and the codes that are none, as texts. `keyOf(code)` answers
    the key's name, or undefined. A code that comes again while its key is down is a repeat, and no stroke. */
export function edgesOf(bytes, keyOf) {
  const edges = [], strange = new Set(), down = new Set();
  let prefix = '', isBreak = false, since = null;
  for (const { begin, byte } of sentCodes(bytes)) {
    since ??= begin;
    if (EXTENDED.includes(byte)) prefix = `${byteText(byte)} `;
    else if (byte === BREAK_PREFIX) isBreak = true;
    else {
      const name = prefix ? undefined : keyOf(byte);
      if (name === undefined) strange.add(prefix + byteText(byte));
      else if (isBreak === down.has(name)) {
        edges.push({ begin: since, name, down: !isBreak });
        if (isBreak) down.delete(name);
        else down.add(name);
      }
      [prefix, isBreak, since] = ['', false, null];
    }
  }
  return { edges, strange: [...strange] };
}

const byteText = byte => byte.toString(16).toUpperCase().padStart(2, '0');

/** The key file of these edges, each at its time, or as soon after it as a key file may have it; and at which stamp is what began
    at the first of them. `left` counts the edges that a key file has no room for. */
export function strokesFile(edges) {
  const stamps = [], lastOf = new Map(), [first] = edges;
  for (const { begin, name } of edges) {
    const soonest = [stamps.at(-1) ?? 0, ...[lastOf.get(name), stamps.at(-IN_A_ROW)].map(it => (it ?? -APART) + APART)];
    const stamp = Math.max(BEGINS + Math.round(begin - first.begin), ...soonest);
    if (stamps.length === MOST_EDGES || stamp > LATEST_STAMP) break;
    stamps.push(stamp);
    lastOf.set(name, stamp);
  }
  const lines = stamps.map((stamp, at) => `${stamp} ${edges[at].down ? 'press' : 'release'} ${edges[at].name}`);
  const end = Math.min(LATEST_STAMP, stamps.at(-1) + AFTER);
  return { text: `${[...lines, `${end} end`].join('\n')}\n`, begins: BEGINS, left: edges.length - stamps.length };
}
