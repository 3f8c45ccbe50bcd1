// Checks a lesson's file in this page, without blocking it.
import { judged } from './course/judged.js';
import { originals } from './files.js';
import { say } from './program.js';

const JUDGED_AT_ONCE = 25; // ms for which trials are made without a pause

const pause = () => new Promise(yes => setTimeout(yes, 0));

/** Judges a text as a lesson's file. `progress` hears how many trials are made. It answers what was found, null if the text is
    right, or undefined if `isLeft` says that nobody waits for it. */
export async function checked(lesson, text, progress = () => {}, isLeft = () => false) {
  const trials = judged(lesson, say, text, originals);
  for (let since = performance.now(), step = trials.next(); ; step = trials.next()) {
    if (step.done) return step.value;
    if (performance.now() - since < JUDGED_AT_ONCE) continue;
    progress(step.value);
    await pause();
    if (isLeft()) return undefined;
    since = performance.now();
  }
}
