// The file that puts a layout's image, or a program of one's own, on a board: what firmware/make makes without a compiler.
import { Refused } from '../boards/refused.js';
import { hexFileOf, programIn } from './hex_file.js';
import { PROGRAM_SIZE, withProgram } from './image_place.js';
import { uf2Of } from './uf2.js';

const bytesIn = base64 => Uint8Array.from(atob(base64), letter => letter.charCodeAt(0));

/** Refuses a layout with a column that has no pin, by its line. */
export function judgeColumns(name, text, boardName, { columns }) {
  for (const [at, line] of text.split(/\r?\n/).entries()) {
    for (const [, column] of line.replace(/"[^"]*"|#.*/g, '').matchAll(/\bcolumn\s*=\s*(\d+)/g)) {
      if (Number(column) >= columns) throw new Refused(`${name}: line ${at + 1}: column ${Number(column)} has no pin: ${boardName} has columns 0 to ${columns - 1}`);
    }
  }
}

/** The file of a board with the program of a HEX text: { name, content }. */
export function fileForBoard(board, { hexText, isKernel, source }) {
  const memory = withProgram(bytesIn(board.memory), { program: programIn(hexText, PROGRAM_SIZE), isKernel, source });
  return board.takesUf2 ? { name: 'kbd48.uf2', content: uf2Of(memory) } : { name: 'kbd48.hex', content: hexFileOf(board.begin, memory) };
}
