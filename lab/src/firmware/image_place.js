// The place of the 8049's program in the flash memory of a board's program (firmware/image.h): so a layout changes without a
// compiler.
import { Refused } from '../boards/refused.js';

export const PROGRAM_SIZE = 2048;

const IMAGE_MARK = 'kbd48img', KNOWN_FORM = 1, FORM = 8, IS_KERNEL = 12, SOURCE = 32, PROGRAM = 128; // bytes after the mark's first
const LONGEST_SOURCE = PROGRAM - SOURCE - 1;

const isMarkAt = (memory, at) => [...IMAGE_MARK].every((letter, n) => memory[at + n] === letter.charCodeAt(0));

function placeIn(memory) {
  const at = memory.findIndex((_, place) => isMarkAt(memory, place)), form = new DataView(memory.buffer).getUint32(at + FORM, true);
  if (form !== KNOWN_FORM) throw new Refused(`its place for the image, at ${at.toString(16).toUpperCase()}, has form ${form}; this page knows form ${KNOWN_FORM}`);
  return at;
}

// A name of whole letters, as bytes.
function shortened(name) {
  const letters = [...name], encoder = new TextEncoder();
  while (encoder.encode(letters.join('')).length > LONGEST_SOURCE) letters.pop();
  return encoder.encode(letters.join(''));
}

/** The memory with a program: `isKernel` says whether it is the image of a layout, `source` from which file it is. */
export function withProgram(memory, { program, isKernel, source }) {
  const made = memory.slice(), at = placeIn(made);
  new DataView(made.buffer).setUint32(at + IS_KERNEL, Number(isKernel), true);
  made.fill(0, at + SOURCE, at + PROGRAM);
  made.set(shortened(source), at + SOURCE);
  made.set(program, at + PROGRAM);
  return made;
}
