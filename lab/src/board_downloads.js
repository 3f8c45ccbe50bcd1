// *Download for the Pico*, and for the other boards of firmware/: a layout or a program of the page in a file for the board.
import { Refused } from './boards/refused.js';
import { byId, save, tell } from './dom.js';
import { files } from './files.js';
import { fileForBoard, judgeColumns } from './firmware/for_board.js';
import { explained, kbd48 } from './program.js';

const CHIPS = JSON.parse(byId('chips').textContent);

/** The boards, and what their buttons say. */
export const BOARD_BUTTONS = { pico: 'Download for the Pico', bluepill: 'Download for the blue pill', blackpill: 'Download for the black pill' };
const WHAT_NEXT = { uf2: 'Hold BOOTSEL while you connect the Pico by USB, and copy the file to the drive that appears.', hex: 'A programmer for STM32 puts it on the board.' };

// The HEX text of a file's program. The proved program judges the file.
function hexTextOf(name, isKernel) {
  const said = kbd48(isKernel ? ['compile', name] : ['step', name, '0']);
  if (said.exit !== 0) throw new Refused(`${name}: ${explained(said)?.words ?? said.text}`);
  return isKernel ? said.text : files[name];
}

function fileOf(name, board) {
  const isKernel = !name.endsWith('.hex');
  if (isKernel) judgeColumns(name, files[name], board, CHIPS[board]);
  return fileForBoard(CHIPS[board], { hexText: hexTextOf(name, isKernel), isKernel, source: name });
}

/** Lets the user save a file of the page for a board; `told` says what to do with it, or what is wrong. */
export function downloadFor(board, name, told) {
  try {
    const file = fileOf(name, board);
    save(file.name, file.content);
    tell(told, `${file.name} has ${name}. ${WHAT_NEXT[file.name.split('.').at(-1)]}`, true);
  } catch (fault) {
    if (!(fault instanceof Refused)) throw fault;
    tell(told, fault.message, false);
  }
}
