// usage: node lessons.mjs LAB.html: each lesson's first file, the answer of lab/answers, other right solutions, and wrong ones,
// judged by the proved program of the page. A wrong one must be refused for what is wrong with it.
import assert from 'node:assert/strict';
import { readFileSync } from 'node:fs';
import { gunzipSync } from 'node:zlib';
import { Program } from '../kbd48.mjs';
import { LESSONS, PATHS } from '../src/lessons.js';
import { firstOf, firstText, judged, nameOf, saidOf } from '../src/course/judged.js';
import { SOLUTIONS } from './solutions.mjs';

const html = readFileSync(process.argv[2], 'utf8'), inPage = id => new RegExp(`id="${id}">(.*?)</script>`, 's').exec(html)[1];
const program = await Program.load(gunzipSync(Buffer.from(inPage('program-module'), 'base64')));
const files = JSON.parse(inPage('files')), faults = JSON.parse(inPage('faults'));
const say = (words, more) => program.run(words, more);
const LEAST_WRONG = 6, LEAST_RIGHT = 2, HINTS = 2, SLOWEST = 20_000; // ms of processor time

/** The processor time of this process, in ms: how long a check takes must not depend on what else the machine does. */
function used() {
  const { user, system } = process.cpuUsage();
  return (user + system) / 1000;
}

/** What a check says of a file, as one text; or null if it is right. Whatever is wrong, what was expected differs from what came. */
function check(lesson, text) {
  const steps = judged(lesson, say, text, files);
  let step;
  do step = steps.next(); while (!step.done);
  if (!step.value) return null;
  const said = saidOf(step.value, faults), [expected, got] = firstOf(step.value);
  must(expected && got && expected !== got && step.value.line < Math.max(step.value.expected.length, step.value.got.length), `${said}: expected ${expected}, got ${got}`);
  return said;
}

const edited = (answer, edit) => (typeof edit === 'string' ? edit : edit.reduce((text, [from, to]) => {
  assert.ok(text.includes(from), `an edit finds ${JSON.stringify(from)}`);
  return text.replace(from, () => to);
}, answer));

const problems = [], counts = { right: 0, wrong: 0 }, began = Date.now();

/** Keeps what is wrong, so that one run of this test names all of it. */
function must(holds, words) { if (!holds) problems.push(words); }

const only = Number(process.argv[3] ?? 0);

for (const [at, lesson] of LESSONS.entries()) {
  if (only && at + 1 !== only) continue;
  const number = at + 1, answer = readFileSync(new URL(`../answers/${nameOf(number)}`, import.meta.url), 'utf8');
  const { right, wrong } = SOLUTIONS[number], from = used(), named = `lesson ${number}, `;
  const accepted = (text, words) => {
    const said = check(lesson, text);
    must(said === null, `${named}${words} is refused: ${said}`);
  };
  accepted(answer, 'the answer');
  const took = used() - from;
  must(took < SLOWEST, `${named}the answer is judged in ${took} ms`);
  must(check(lesson, firstText(lesson, files)), `${named}the first file is accepted`);
  must(right.length >= LEAST_RIGHT && wrong.length >= LEAST_WRONG, `${named}there are few solutions`);
  must(lesson.hints.length === HINTS, `${named}there are ${lesson.hints.length} hints`);
  for (const [n, edit] of right.entries()) accepted(edited(answer, edit), `right solution ${n + 1}`);
  for (const [n, { edit, says }] of wrong.entries()) {
    const said = check(lesson, edited(answer, edit));
    must(said && says.test(said), `${named}wrong solution ${n + 1}: ${said ?? 'it is accepted'}`);
  }
  counts.right += right.length + 1;
  counts.wrong += wrong.length + 1;
}
// The lessons and docs/OWN-FIRMWARE.md are one text: the page has the document, and the document's table has each lesson's section.
const { firmware: manual } = JSON.parse(inPage('manual')), sections = [...manual.matchAll(/^## (.*)$/gm)].map(([, title]) => title);
const listed = new Map([...manual.matchAll(/^\| ([^|]+) \| ([\d, ]+) \|$/gm)].map(([, title, numbers]) => [title, numbers]));
const wanted = new Map(sections.filter(title => LESSONS.some(it => it.section === title)).map(title => [title, LESSONS.flatMap((it, n) => (it.section === title ? [n + 1] : [])).join(', ')]));
must(LESSONS.every(it => sections.includes(it.section)), 'a lesson names a section that the document lacks');
assert.deepEqual([...listed].sort(), [...wanted].sort(), 'the table of the document has the lessons\' sections');
must(PATHS.every(it => it.lessons.every(number => number in SOLUTIONS) && new Set(it.lessons).size === it.lessons.length), 'a path has a lesson twice, or one that there isn\'t');

assert.deepEqual(problems, []);
console.log(`${LESSONS.length} lessons: ${counts.right} right solutions accepted and ${counts.wrong} wrong ones refused, in ${((Date.now() - began) / 1000).toFixed(1)} s`);
