// What the program refuses, as what is found of a file (judge.js): the line that it names, beside what such a line must be; and the
// refusal itself, as `refused`.
import { explanationOf } from '../refusals.js';

const LINES_BEFORE = 3;
const ANY = 'any';
// What a line must be in place of one with a fault, by the fault's number (docs/faults.tsv).
const LINE_MUST_BE = {
  asm: {
    2: 'an instruction, or ORG, DB or EQU', 3: 'an instruction with operands that it takes', 4: 'names that some line defines', 5: 'a name that no other line defines',
    6: 'a jump to a place in its own page of 256', 7: 'bytes up to place 2,047', 8: 'a place that no other line fills', [ANY]: 'a label and a colon, an instruction, a semicolon and a comment',
  },
  cert: {
    1: 'PPP N or PPP N M R; the first line is target PPP', 2: 'a place that no other line has', 3: 'target PPP, and then a line for each place', 4: 'an instruction that can be certified',
    5: 'a place of which each place that can follow has a line', 6: 'a bound that is at least that of each place that can follow, plus the cycles of this instruction', [ANY]: 'a line of a certificate',
  },
};
const LONGEST_FILE = { asm: 262_144, cert: 65_536 }; // bytes

const difference = (refused, before, expected, got) => ({ refused, line: before.length, expected: [...before, expected], got: [...before, got] });

/** What is found of a source or of a certificate with this text that the program refuses. */
export function refusedFile(refused, text) {
  const { kind, line, number } = explanationOf(refused, {}) ?? {}, numbered = (words, n) => `${n} ${words || 'nothing'}`;
  if (!line) return difference(refused, [], LONGEST_FILE[kind] ? `at most ${LONGEST_FILE[kind]} bytes` : 'a file that the program takes', LONGEST_FILE[kind] ? `${new TextEncoder().encode(text).length} bytes` : refused.text.trim());
  const lines = text.split('\n'), first = Math.max(0, line - 1 - LINES_BEFORE), before = lines.slice(first, line - 1).map((words, n) => numbered(words, first + n + 1));
  return difference(refused, before, numbered(LINE_MUST_BE[kind]?.[number] ?? LINE_MUST_BE[kind]?.[ANY], line), numbered(lines[line - 1], line));
}

const isByte = word => /^[0-9A-F]{2}$/i.test(word);

/** What is found of a list of bytes that the program refuses. */
export function refusedBytes(refused, words) {
  const at = words.findIndex(word => !isByte(word));
  if (at >= 0 || !words.length) return difference(refused, words.slice(0, Math.max(0, at)), 'a byte: two hexadecimal digits', words[at] ?? 'nothing');
  return difference(refused, [], 'fewer bytes', `${words.length} bytes`);
}
