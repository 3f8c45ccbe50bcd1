// Intel HEX, the form of programs for the 8049 and of files for a board's flash memory (firmware/ihex.py).

const OF_A_LINE = 16, DATA_RECORD = 0, END_RECORD = 1, UPPER_HALF = 4; // bytes; kinds of records

function recordOf(place, kind, bytes) {
  const raw = [bytes.length, place >> 8 & 0xFF, place & 0xFF, kind, ...bytes], sum = raw.reduce((all, byte) => all + byte, 0);
  return `:${[...raw, -sum & 0xFF].map(byte => byte.toString(16).toUpperCase().padStart(2, '0')).join('')}\n`;
}

/** The text of these bytes from an address on. The upper half of the address is given wherever it changes. */
export function hexFileOf(begin, bytes) {
  let text = '', upper = -1;
  for (let at = 0; at < bytes.length; at += OF_A_LINE) {
    const address = begin + at, half = address >>> 16;
    if (half !== upper) text += recordOf(0, UPPER_HALF, [half >> 8, half & 0xFF]);
    upper = half;
    text += recordOf(address & 0xFFFF, DATA_RECORD, bytes.subarray(at, at + OF_A_LINE));
  }
  return text + recordOf(0, END_RECORD, []);
}

/** The program memory that a HEX text gives, of so many bytes. `kbd48` has printed this text or accepted it, so it is right. */
export function programIn(text, size) {
  const program = new Uint8Array(size);
  for (const [, place, kind, bytes] of text.matchAll(/^:..(....)(..)(.*)..\r?$/gm)) {
    if (Number(kind) === END_RECORD) break;
    if (Number(kind) === DATA_RECORD) program.set(Array.from(bytes.match(/../g) ?? [], byte => parseInt(byte, 16)), parseInt(place, 16));
  }
  return program;
}
