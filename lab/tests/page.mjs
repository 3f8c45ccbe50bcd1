// usage: node page.mjs chromium|firefox PROGRAM LAB.html BOARDS.json [SHOTS]: the page in a browser, by scripted keys and
// clicks. BOARDS.json has what examples/from_kle makes of boards. Pictures go to SHOTS.
import assert from 'node:assert/strict';
import { mkdtempSync, rmSync } from 'node:fs';
import { tmpdir } from 'node:os';
import { dirname, join, resolve } from 'node:path';
import { pathToFileURL } from 'node:url';
import * as captures from './parts/captures.mjs';
import * as keeping from './parts/keeping.mjs';
import * as keyboard from './parts/keyboard.mjs';
import * as lessonParts from './parts/lessons.mjs';
import * as look from './parts/look.mjs';
import * as processor from './parts/processor.mjs';
import * as saving from './parts/saving.mjs';
import * as screens from './parts/screens.mjs';
import * as wires from './parts/wires.mjs';
import * as workbench from './parts/workbench.mjs';

const [, , kind, program, page, answers, shots] = process.argv;
const { open } = await import(`./${kind}.mjs`);
const url = pathToFileURL(page).href, examples = resolve(dirname(page), '../examples');
const SIZE = [1280, 1320];
let browser = await open(program, url, SIZE);
const folder = mkdtempSync(join(tmpdir(), 'kbd48-files-'));

async function shot(name) {
  if (!shots) return;
  await browser.evaluate('scrollTo(0, 0)');
  await browser.wait(300);
  await browser.screenshot(join(shots, `${kind}_${name}.png`));
}

/** Runs one part, and names it if it fails. */
async function part(name, act) {
  try {
    return await act();
  } catch (error) {
    await shot('failed').catch(() => {});
    throw new Error(`${browser.name}, ${name}: ${error.message}`, { cause: error });
  }
}

// What somebody may have chosen for all pages.
const MEDIA = [
  ['forced colours', { 'forced-colors': 'active', 'prefers-reduced-motion': 'reduce' }, screens.forced],
  ['dark', { 'prefers-color-scheme': 'dark' }, screens.dark],
];

try {
  await browser.ready();
  await part('policy', () => look.policy(browser));
  await part('typing', () => keyboard.typing(browser, shot));
  await part('prompt', () => keyboard.prompt(browser));
  await part('out of sight', () => keyboard.outOfSight(browser));
  await part('leaving', () => keyboard.leaving(browser));
  await part('lost focus', () => keyboard.lostFocus(browser));
  await part('panes', () => look.panes(browser));
  await part('commands', () => wires.commands(browser));
  await part('masked', () => wires.masked(browser));
  await part('noise', () => wires.noise(browser));
  await part('pullers', () => wires.pullers(browser));
  await part('sessions', () => wires.sessions(browser));
  await part('waveform', () => wires.waveform(browser, shot));
  await part('speeds', () => wires.speeds(browser));
  await part('captures', () => captures.found(browser, shot, examples));
  await part('signals of a capture', () => captures.signals(browser, examples));
  await part('beside a capture', () => captures.beside(browser, shot));
  await part('contrast', () => look.contrast(browser));
  await part('controls of a capture', () => look.focusOf(browser, 'wires'));
  await part('no captures', () => captures.refused(browser, folder));
  await part('dropped captures', () => captures.dropped(browser, examples));
  await part('a large capture', () => captures.large(browser, folder));
  await part('breakpoints', () => processor.breakpoints(browser));
  await part('cursor', () => processor.cursor(browser));
  await part('steps back', () => processor.stepsBack(browser));
  await part('calls', () => processor.calls(browser, folder));
  await part('paces', () => processor.paces(browser, shot));
  await part('contrast of the processor', () => look.contrast(browser));
  await part('live processor', () => processor.live(browser, shot));
  await part('sources', () => workbench.sources(browser));
  await part('downloads', () => workbench.downloads(browser, examples));
  await part('files for boards', () => saving.forBoards(browser, page, join(examples, 'boards')));
  await part('runs', () => workbench.runs(browser, shot));
  await part('long runs', () => workbench.longRuns(browser));
  await part('contrast of the workbench', () => look.contrast(browser));
  await part('second layer', () => keyboard.secondLayer(browser));
  const boards = await part('every board', () => keyboard.everyBoard(browser, answers));
  await part('as the board has them', () => keyboard.asTheBoardHasThem(browser, shot, join(examples, 'boards')));
  await part('board files', () => keyboard.boardFiles(browser, shot, join(examples, 'boards')));
  await part('options of a board', () => keyboard.boardOptions(browser, shot, join(examples, 'boards')));
  await part('a layout of mine', () => keyboard.keepsMine(browser, join(examples, 'boards')));
  await part('broken files', () => workbench.brokenFiles(browser, folder));
  await part('share link', () => workbench.shareLink(browser, url));
  const lessons = await part('lessons', () => lessonParts.lessons(browser, shot));
  await part('differences', () => lessonParts.differences(browser, shot));
  await part('paths', () => lessonParts.paths(browser, shot));
  await part('link', () => lessonParts.link(browser));
  await part('instructions', () => lessonParts.instructions(browser, shot));
  await part('sheets', () => lessonParts.sheets(browser, shot));
  await part('by keyboard', () => lessonParts.byKeyboard(browser));
  await part('contrast of the lessons', () => look.contrast(browser));
  await part('one copy', () => keeping.oneCopy(browser, url));
  await part('begin again', () => keeping.beginAgain(browser));
  await part('saved as one', () => keeping.savedAsOne(browser, folder));
  await part('links', () => keeping.links(browser, url));
  await part('edges', () => keeping.edges(browser, url));
  await part('hand-ins', () => keeping.handIns(browser, folder));
  await part('forgetting', () => keeping.forgetting(browser, url));
  const controls = await part('focus', () => look.focus(browser));
  const load = await part('load', () => look.loads(browser));
  await part('phones', () => look.phones(browser, shot));
  await part('fingers', () => screens.fingers(browser));
  await part('first window', () => screens.firstWindow(browser, url));
  await part('where keys go', () => screens.whereKeysGo(browser));
  await part('screen readers', () => screens.readers(browser));
  await part('tour', () => screens.tour(browser));
  await part('slowly', () => screens.slowly(browser));
  await part('macOS', () => keyboard.macintosh(browser, url));
  await part('trap', () => look.trap(browser));
  for (const [name, media, act] of MEDIA) {
    const { seen } = browser;
    await browser.close();
    browser = await open(program, url, SIZE, media);
    browser.seen.push(...seen);
    await browser.ready();
    await part(name, () => act(browser, shot));
  }
  assert.deepEqual(browser.seen, [], 'nothing on the console, and nothing asked for');
  console.log(`the page in ${browser.name}: every button and pane, ${boards} boards, ${lessons} lessons, ${controls} controls by Tab, small screens; ${load}`);
} finally {
  await browser.close();
  rmSync(folder, { recursive: true, force: true });
}
