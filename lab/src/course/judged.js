// A lesson's file, judged, and what was found in words.
import { LESSONS } from '../lessons.js';
import { explanationOf } from '../refusals.js';
import { replaced } from './replaced.js';

/** The file that a lesson begins with; `originals` are the examples of the page. */
export const firstText = (lesson, originals) => lesson.start ?? replaced(originals[lesson.file], lesson.begin);

/** Judges a text as a lesson's file: it goes on trial by trial, and returns what was found, or null. */
export const judged = (lesson, say, text, originals) => lesson.judges(say, text, { ...originals, ...lesson.extra });

/** The first difference: what was expected beside what came. */
export const firstOf = ({ expected, got, line }) => [expected[line] ?? 'nothing more', got[line] ?? 'nothing more'];

/** What was found, in words. */
export function saidOf(found, faults) {
  if (found.refused) return explanationOf(found.refused, faults)?.words ?? found.refused.text.trim();
  const [expected, got] = firstOf(found);
  return `${found.says}: ${found.what}: expected ${expected}, got ${got}`;
}

/** Each lesson's number, from 1, and the name of its file. */
export const nameOf = number => `lesson${number}.${LESSONS[number - 1].file.split('.').at(-1)}`;
