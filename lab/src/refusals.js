// The program's refusals in words.

export const EXIT = { DONE: 0, WORDS: 2, INPUT: 3, TIMING: 4, READ: 5, WRITE: 6, MEMORY: 7, STUCK: 8 };

/** What a refusal says, and the line of a file that it names, with the fault's number: { kind, words, line, number } or null. `faults` has the words of each kind
    of file's faults, by number. */
export function explanationOf(answer, faults) {
  if (answer.failed) return { words: `the browser could not finish this run: ${answer.failed}` };
  const faultText = (kind, number) => faults[kind]?.[number] ?? `fault ${number}`;
  const text = answer.text.trimEnd(), last = text.slice(text.lastIndexOf('\n') + 1);
  let found = /^input: (\w+) line (\d+) fault (\d+)/.exec(last);
  if (found) return { kind: found[1], line: Number(found[2]), number: Number(found[3]), words: `line ${found[2]}: ${faultText(found[1], found[3])}` };
  found = /^input: layout entry (\d+) fault (\d+)/.exec(last);
  if (found) {
    const entry = found[1] === '0' ? 'the layout' : `entry ${found[1]} of the layout`;
    return { kind: 'layout', words: `${entry}: ${faultText('layout', found[2])}` };
  }
  found = /^timing: line (\d+) fault (\d+) stamps (-?\d+) (-?\d+)/.exec(last);
  if (found) return { kind: 'keys', line: Number(found[1]), words: `line ${found[1]}: ${faultText('keys', found[2])} (${found[3]} and ${found[4]})` };
  found = /^input: text byte (\d+)/.exec(last);
  if (found) return { kind: 'text', words: `byte ${found[1]}: ${faultText('text', '1')}` };
  found = /^input: (\w+) too long/.exec(last);
  if (found) return { kind: found[1], words: `the ${found[1]} file is too long` };
  found = /^stuck: pc (\w+) byte (\w+)/.exec(last);
  if (found) return { words: `the processor is stuck at ${found[1]}: the byte ${found[2]} begins no instruction` };
  const words = {
    [EXIT.WORDS]: 'these words are no command of kbd48',
    [EXIT.READ]: 'a file that the words name is not here',
    [EXIT.WRITE]: 'the text is longer than the page can hold',
    [EXIT.MEMORY]: 'there is no memory left',
  }[answer.exit];
  return words ? { words } : null;
}
