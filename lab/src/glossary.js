// The words of the two logs, in words.
import { byId, make } from './dom.js';

const WORDS = [
  ['ms', 'the time since the keyboard\'s first tick, 10.24 ms after power-on, in thousandths of a second'],
  ['stamp', 'the same time in cycles of the keyboard\'s processor: 400 of them are 1 ms'],
  ['tick', 'the keyboard reads its keys once in a tick of 2,048 cycles, which are 5.12 ms'],
  ['keyboard → PC 1C', 'a byte on the two wires, with eleven bits: 1C is the keyboard\'s code of the key A'],
  ['port 1E', 'INT 09h, the PC\'s program for the keyboard, reads a byte at port 60h: 1E is the scan code that the controller made of 1C'],
  ['word 1E61', 'INT 09h puts a word into its buffer for other programs: the scan code 1E, and 61, the character a'],
  ['break', 'Ctrl and Break were struck'], ['beep', 'the buffer is full, or the keyboard has lost codes'],
  ['overrun', 'more keys were struck than the keyboard could keep'], ['lights 4', 'the lamps that are lit: 1 Scroll Lock, 2 Num Lock, 4 Caps Lock'],
  ['read 10', 'a program reads port 60h itself'], ['status 1D', 'a program reads the controller\'s status at port 64h'],
  ['output DF', 'the controller\'s output port: its bits 6 and 7 are the wires\' pulls'],
];

/** Fills the list that the page has. */
export const fillGlossary = () => byId('glossary').querySelector('dl').replaceChildren(...WORDS.flatMap(([word, says]) => [make('dt', { textContent: word }), make('dd', { textContent: says })]));
