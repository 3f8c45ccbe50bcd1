// The proved program over the files of the page, and its refusals in words.
import { byId } from './dom.js';
import { files } from './files.js';
import { explanationOf } from './refusals.js';

export const FAULTS = JSON.parse(byId('faults').textContent);

let program = null;

export function useProgram(made) { program = made; }

/** The program's exit and text over these files alone. */
export const say = (words, given) => program.run(words, given);

/** The program's exit and text; `more` are files beside those of the page, or in place of them. */
export function kbd48(words, more = {}) {
  const all = { ...files, ...more };
  const needed = Object.fromEntries(words.slice(1).filter(word => Object.hasOwn(all, word)).map(word => [word, all[word]]));
  return say(words, needed);
}

/** What a refusal says, and the line of a file that it names: { words, line } or null. */
export const explained = answer => explanationOf(answer, FAULTS);
