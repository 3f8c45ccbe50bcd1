// What the tests do with a browser, whichever it is: wait, look, press, click.
import { readFileSync, readdirSync } from 'node:fs';
import { rm } from 'node:fs/promises';

const PATIENCE = 30_000; // ms
const TICKS_OF_A_SECOND = 100; // in /proc
const TRIES = 6;
const MOST_LOOKS = 50, BETWEEN_LOOKS = 20; // ms

/** A pace that is measured is the one that was asked for: at most half as much again, and at least this part of it. A busy machine
    only makes it slower, so a slow one is measured again. */
export async function pacedAt(asked, measure, least = 0.5) {
  let was = 0;
  for (let tries = 0; tries < TRIES && was <= least * asked; tries++) was = await measure();
  if (!(was > least * asked && was < 1.5 * asked)) throw new Error(`at ${asked} it ran at ${was}`);
}

/** Ends a browser, and removes its profile. Its other processes may write there for a moment after it has ended. `rmSync` doesn't
    try again when a folder isn't empty, `rm` does. */
export async function quit(child, profile) {
  const gone = new Promise(yes => child.once('exit', yes));
  child.kill();
  await gone;
  await rm(profile, { recursive: true, force: true, maxRetries: 20, retryDelay: 100 });
}

/** A driver with what every driver has. */
export function hands(driver) {
  const browser = {
    ...driver,
    wait: ms => new Promise(yes => setTimeout(yes, ms)),
    /** Waits until an expression holds. */
    async until(expression) {
      for (const end = Date.now() + PATIENCE; Date.now() < end; await browser.wait(25)) if (await browser.evaluate(expression)) return;
      throw new Error(`it never came to be: ${expression}; ${browser.seen.join('; ')}`);
    },
    async stroke(code, hold = 60, more = {}) {
      await browser.down(code, more);
      await browser.wait(hold);
      await browser.up(code, more);
      await browser.wait(30);
    },
    /** The middle of an element, which is scrolled into sight. A page may still scroll for what was done before, so it is looked at
        until it rests. */
    place: selector => browser.evaluate(`(async () => {
      const it = document.querySelector(${JSON.stringify(selector)});
      const look = () => { it.scrollIntoView({ block: 'center', inline: 'center' }); const r = it.getBoundingClientRect(); return { x: r.x + r.width / 2, y: r.y + r.height / 2 }; };
      let at = look();
      for (let was = null, n = 0; n < ${MOST_LOOKS} && (was?.x !== at.x || was?.y !== at.y); n++) {
        was = at;
        await new Promise(yes => setTimeout(yes, ${BETWEEN_LOOKS}));
        at = look();
      }
      return at;
    })()`),
    async click(selector) {
      const at = await browser.place(selector);
      await browser.mouse('down', at);
      await browser.mouse('up', at);
    },
    async tap(selector, hold = 60) {
      const at = await browser.place(selector);
      await browser.touch('down', at);
      await browser.wait(hold);
      await browser.touch('up', {});
      await browser.wait(hold);
    },
    textOf: id => browser.evaluate(`document.getElementById('${id}').textContent`),
    valueOf: id => browser.evaluate(`document.getElementById('${id}').value`),
    async says(id, form) {
      try {
        await browser.until(`${form}.test(document.getElementById('${id}').textContent)`);
      } catch (error) {
        throw new Error(`${id} has ${JSON.stringify(await browser.textOf(id))}: ${error.message}`, { cause: error });
      }
    },
    put: (id, text) => browser.evaluate(`(() => { const it = document.getElementById('${id}'); it.value = ${JSON.stringify(text)}; it.dispatchEvent(new Event('input')); it.dispatchEvent(new Event('change')); })()`),
    /** Clicks the button with this text, or with one that begins so. */
    pressed: (id, text) => browser.evaluate(`[...document.querySelectorAll('#${id} button')].find(it => it.textContent.startsWith(${JSON.stringify(text)})).click()`),
    /** One pane alone is shown. */
    async only(name) {
      await browser.evaluate(`document.querySelectorAll('#panes button').forEach(button => lab.show(button.dataset.pane, button.dataset.pane === '${name}'))`);
      await browser.wait(50);
    },
    ready: () => browser.until('globalThis.lab?.live?.stamp > 0'),
    /** The processor seconds that the browser has taken, with all its processes; or null if the system doesn't say. */
    processorSeconds: () => secondsOf(driver.pid),
  };
  return browser;
}

function secondsOf(pid) {
  try {
    const all = readdirSync('/proc').filter(name => /^\d+$/.test(name)).map(statOf).filter(Boolean), mine = new Set([pid]);
    for (let before = 0; before < mine.size;) {
      before = mine.size;
      for (const it of all) if (mine.has(it.parent)) mine.add(it.pid);
    }
    return all.filter(it => mine.has(it.pid)).reduce((sum, it) => sum + it.ticks, 0) / TICKS_OF_A_SECOND;
  } catch {
    return null;
  }
}

// A process may end while it is looked at.
function statOf(pid) {
  try {
    const text = readFileSync(`/proc/${pid}/stat`, 'utf8'), fields = text.slice(text.lastIndexOf(')') + 2).split(' ');
    return { pid: Number(pid), parent: Number(fields[1]), ticks: Number(fields[11]) + Number(fields[12]) };
  } catch {
    return null;
  }
}
