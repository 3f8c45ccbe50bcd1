// A headless Chromium, driven by its own pipe: no package is needed. `firefox.mjs` has the same for Firefox.
import { spawn } from 'node:child_process';
import { mkdtempSync, writeFileSync } from 'node:fs';
import { tmpdir } from 'node:os';
import { join } from 'node:path';
import { hands, quit } from './hands.mjs';

const FLAGS = ['--headless=new', '--no-sandbox', '--disable-gpu', '--remote-debugging-pipe', '--no-first-run'];

/** Opens a page, for somebody who has chosen these media features. What it logs, what it throws, and what it asks for from elsewhere, is in `seen`. */
export async function open(program, url, [width, height], media = {}) {
  const profile = mkdtempSync(join(tmpdir(), 'kbd48-lab-'));
  const child = spawn(program, [...FLAGS, `--user-data-dir=${profile}`, `--window-size=${width},${height}`, 'about:blank'],
    { stdio: ['ignore', 'ignore', 'ignore', 'pipe', 'pipe'] });
  const [, , , to, from] = child.stdio, waits = new Map(), seen = [];
  let rest = '', next = 1, session;
  from.setEncoding('utf8').on('data', data => {
    const parts = (rest + data).split('\0');
    rest = parts.pop();
    parts.forEach(part => heard(JSON.parse(part)));
  });
  function heard({ id, error, result, method, params }) {
    if (id) {
      const { yes, no } = waits.get(id);
      waits.delete(id);
      if (error) no(new Error(error.message));
      else yes(result);
    } else if (method === 'Runtime.consoleAPICalled') seen.push(`console: ${params.args.map(arg => arg.value ?? arg.description).join(' ')}`);
    else if (method === 'Runtime.exceptionThrown') seen.push(`exception: ${params.exceptionDetails.exception?.description ?? params.exceptionDetails.text}`);
    else if (method === 'Log.entryAdded') seen.push(`${params.entry.level}: ${params.entry.text}`);
    else if (method === 'Network.requestWillBeSent' && !/^(file|data|blob):/.test(params.request.url)) seen.push(`request: ${params.request.url}`);
  }
  const send = (method, params = {}) => new Promise((yes, no) => {
    waits.set(next, { yes, no });
    to.write(`${JSON.stringify({ id: next++, method, params, sessionId: session })}\0`);
  });
  const { targetInfos } = await send('Target.getTargets');
  ({ sessionId: session } = await send('Target.attachToTarget', { targetId: targetInfos.find(it => it.type === 'page').targetId, flatten: true }));
  for (const domain of ['Runtime', 'Page', 'Log', 'Network']) await send(`${domain}.enable`);
  await send('Emulation.setEmulatedMedia', { features: Object.entries(media).map(([name, value]) => ({ name, value })) });
  await send('Page.navigate', { url });
  const key = (type, code, more) => send('Input.dispatchKeyEvent', { type, code, key: code, windowsVirtualKeyCode: VIRTUAL[code] ?? 65, ...more });
  return hands({
    name: 'Chromium', pid: child.pid, seen, send,
    async evaluate(expression) {
      const { result, exceptionDetails } = await send('Runtime.evaluate', { expression, awaitPromise: true, returnByValue: true });
      if (exceptionDetails) throw new Error(exceptionDetails.exception?.description ?? exceptionDetails.text);
      return result.value;
    },
    down: (code, more = {}) => key('keyDown', code, more),
    up: (code, more = {}) => key('keyUp', code, more),
    /** Types a text; a new line is Enter. */
    async write(text) {
      const letter = type => it => send('Input.dispatchKeyEvent', { type, ...it === '\n' ? { key: 'Enter', code: 'Enter', text: '\r', windowsVirtualKeyCode: VIRTUAL.Enter } : { key: it, text: it } });
      await Promise.all([...text].flatMap(it => [letter('keyDown')(it), letter('keyUp')(it)]));
    },
    async control(code) {
      for (const type of ['keyDown', 'keyUp']) await key(type, code, { modifiers: CONTROL });
    },
    /** Presses a key so many times. */
    async presses(code, times, isShifted = false) {
      const modifiers = isShifted ? SHIFT : 0;
      await Promise.all(Array.from({ length: times }, () => ['keyDown', 'keyUp'].map(type => key(type, code, { modifiers }))).flat());
    },
    async tabBack() {
      for (const type of ['keyDown', 'keyUp']) await key(type, 'Tab', { modifiers: SHIFT });
    },
    async mouse(type, { x, y }) {
      const [name, buttons] = { down: ['mousePressed', 1], up: ['mouseReleased', 0], drag: ['mouseMoved', 1] }[type];
      await send('Input.dispatchMouseEvent', { type: name, x, y, button: 'left', buttons, clickCount: 1 });
    },
    async touch(type, point) {
      const name = { down: 'touchStart', drag: 'touchMove', up: 'touchEnd' }[type];
      await send('Input.dispatchTouchEvent', { type: name, touchPoints: type === 'up' ? [] : [point] });
    },
    async choose(selector, files) {
      const { root } = await send('DOM.getDocument');
      const { nodeId } = await send('DOM.querySelector', { nodeId: root.nodeId, selector });
      await send('DOM.setFileInputFiles', { nodeId, files });
    },
    /** A screen of this size; a phone's has fingers. */
    async size(size, scale, isPhone) {
      if (size) await send('Emulation.setDeviceMetricsOverride', { width: size[0], height: size[1], deviceScaleFactor: scale, mobile: isPhone });
      else await send('Emulation.clearDeviceMetricsOverride');
      await send('Emulation.setTouchEmulationEnabled', { enabled: isPhone === true });
    },
    /** A script that runs before those of each page that is opened from now on. */
    before: source => send('Page.addScriptToEvaluateOnNewDocument', { source }),
    async go(to) {
      await send('Page.navigate', { url: 'about:blank' });
      await send('Page.navigate', { url: to });
    },
    async screenshot(path) { writeFileSync(path, Buffer.from((await send('Page.captureScreenshot')).data, 'base64')); },
    close: () => quit(child, profile),
  });
}

const VIRTUAL = { Tab: 9, Enter: 13, Escape: 27, Space: 32, End: 35, Home: 36, ArrowLeft: 37, ArrowUp: 38, ArrowRight: 39, ArrowDown: 40, Delete: 46 };
const CONTROL = 2, SHIFT = 8; // modifiers
