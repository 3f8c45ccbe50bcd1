// What the page hands to the browser to save; and the files for boards that execute the image.
import assert from 'node:assert/strict';
import { readFileSync } from 'node:fs';
import { join } from 'node:path';
import { fileForBoard } from '../../src/firmware/for_board.js';

/** The files that the page saves while something is done: their names and bytes. */
export async function savedWhile(browser, act) {
  await browser.evaluate(`globalThis.saved = []; globalThis.blobs = new Map();
    globalThis.madeBy = URL.createObjectURL;
    URL.createObjectURL = blob => { const url = madeBy.call(URL, blob); blobs.set(url, blob); return url; };
    HTMLAnchorElement.prototype.click = function () { saved.push([this.download, blobs.get(this.href)]); }; 0`);
  await act();
  const saved = await browser.evaluate('Promise.all(saved.map(async ([name, blob]) => [name, [...new Uint8Array(await blob.arrayBuffer())]]))');
  await browser.evaluate('URL.createObjectURL = madeBy; delete HTMLAnchorElement.prototype.click; 0');
  return saved.map(([name, bytes]) => [name, Buffer.from(bytes)]);
}

const press = (browser, within, text) => browser.evaluate(`[...document.querySelectorAll('${within} button')].find(it => it.textContent === ${JSON.stringify(text)}).click()`);

/** The file of a board with what the workbench's command prints of a layout. */
async function wanted(browser, board, source) {
  await browser.only('workbench');
  await browser.put('words', `compile ${source}`);
  await browser.click('#do');
  const file = fileForBoard(board, { hexText: await browser.textOf('answer'), isKernel: true, source });
  return [file.name, Buffer.from(file.content)];
}

/** *Download for the Pico* of a board file that was opened, and for each board in the workbench. What doesn't fit is refused, and
    nothing is saved. */
export async function forBoards(browser, page, boardFiles) {
  const boards = JSON.parse(/id="chips">(.*?)<\/script>/.exec(readFileSync(page, 'utf8'))[1]);
  await browser.only('keyboard');
  await browser.choose('#open-board', ['sixty64.json', 'sixty64.layout.json'].map(name => join(boardFiles, 'sixty_via', name)));
  await browser.says('board-told', /^sixty64\.toml is made of sixty64\.json and sixty64\.layout\.json\./);
  const ofPico = await savedWhile(browser, () => press(browser, '#board-told', 'Download for the Pico'));
  await browser.says('download-told', /^kbd48\.uf2 has sixty64\.toml\. Hold BOOTSEL/);
  assert.deepEqual(ofPico, [await wanted(browser, boards.pico, 'sixty64.toml')]);
  await browser.put('layout', 'us84.toml');
  await browser.evaluate('lab.workbench.open("sixty_fn.toml")');
  const ofPill = await savedWhile(browser, () => press(browser, '#offers', 'Download for the blue pill'));
  await browser.says('told', /^kbd48\.hex has sixty_fn\.toml\./);
  assert.deepEqual(ofPill, [await wanted(browser, boards.bluepill, 'sixty_fn.toml')]);
  await browser.evaluate('lab.workbench.open("sixty.toml")');
  const whole = await browser.valueOf('text');
  for (const [text, why] of [
    [whole.replace('column = 0', 'column = 12'), /^sixty\.toml: line \d+: column 12 has no pin: pico has columns 0 to 11$/],
    ['format = 1\n', /^sixty\.toml: the layout: /],
  ]) {
    await browser.put('text', text);
    assert.deepEqual(await savedWhile(browser, () => press(browser, '#offers', 'Download for the Pico')), []);
    await browser.says('told', why);
  }
  await browser.put('text', whole);
}
