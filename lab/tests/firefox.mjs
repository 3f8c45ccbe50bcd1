// A headless Firefox, driven by WebDriver BiDi: no package is needed.
import { spawn } from 'node:child_process';
import { mkdtempSync, writeFileSync } from 'node:fs';
import { tmpdir } from 'node:os';
import { join } from 'node:path';
import { hands, quit } from './hands.mjs';
import { webSocket } from './web_socket.mjs';

/** Opens a page, as `open` of `chromium.mjs` does. */
export async function open(program, url, [width, height], media = {}) {
  const profile = mkdtempSync(join(tmpdir(), 'kbd48-firefox-'));
  writeFileSync(join(profile, 'user.js'), Object.entries(media).map(([name, value]) => PREFERENCES[`${name}: ${value}`]).join(''));
  const child = spawn(program, ['--headless', '--no-remote', '--profile', profile, '--remote-debugging-port=0'], { stdio: ['ignore', 'ignore', 'pipe'] });
  const waits = new Map(), seen = [];
  let next = 1;
  const heard = text => {
    const { id, type, result, message, method, params } = JSON.parse(text);
    if (method === 'log.entryAdded') seen.push(`${params.level}: ${params.text}`);
    else if (method === 'network.beforeRequestSent' && !/^(file|data|blob|about):/.test(params.request.url)) seen.push(`request: ${params.request.url}`);
    else if (id) {
      const { yes, no } = waits.get(id);
      waits.delete(id);
      if (type === 'error') no(new Error(message));
      else yes(result);
    }
  };
  const ended = () => { for (const { no } of waits.values()) no(new Error('Firefox ended the connection')); };
  const socket = await webSocket(`${await addressOf(child)}/session`, heard, ended);
  const send = (method, params) => new Promise((yes, no) => {
    waits.set(next, { yes, no });
    socket.send(JSON.stringify({ id: next++, method, params }));
  });
  await send('session.new', { capabilities: {} });
  const { contexts: [{ context }] } = await send('browsingContext.getTree', {});
  await send('session.subscribe', { events: ['log.entryAdded', 'network.beforeRequestSent'] });
  const size = ([width, height], devicePixelRatio) => send('browsingContext.setViewport', { context, viewport: { width, height }, devicePixelRatio });
  await size([width, height], 1);
  const navigate = to => send('browsingContext.navigate', { context, url: to, wait: 'complete' });
  await navigate(url);
  const said = async (expression, resultOwnership = 'none') => {
    const { type, result, exceptionDetails } = await send('script.evaluate', {
      expression, target: { context }, awaitPromise: true, resultOwnership, serializationOptions: { maxObjectDepth: 20 },
    });
    if (type === 'exception') throw new Error(exceptionDetails.text);
    return result;
  };
  const act = (id, type, actions, parameters) => send('input.performActions', { context, actions: [{ type, id, actions, ...(parameters && { parameters }) }] });
  const press = async (type, code, more) => {
    const value = keyOf(code);
    // Some events no script can make the browser send, so the page gets them from another script.
    if (value && !Object.keys(more).length) {
      if (code === 'Tab') await said('globalThis.focused = document.activeElement; 0');
      await act('keys', 'key', [{ type, value }]);
      // A window that nobody sees is never the active one, so no element hears that it loses the focus.
      if (code === 'Tab') await said('if (focused !== document.activeElement) focused.dispatchEvent(new FocusEvent("blur")); 0');
    }
    else await said(`document.activeElement.dispatchEvent(new KeyboardEvent(${JSON.stringify(type.toLowerCase())}, ${JSON.stringify({ code, key: code, bubbles: true, cancelable: true, ...EVENT(more) })}))`);
  };
  const chord = (held, value) => act('keys', 'key', [{ type: 'keyDown', value: held }, { type: 'keyDown', value }, { type: 'keyUp', value }, { type: 'keyUp', value: held }]);
  const pointer = (id, pointerType) => (type, { x, y } = {}) => act(id, 'pointer', [
    ...(x === undefined ? [] : [{ type: 'pointerMove', x: Math.round(x), y: Math.round(y) }]),
    ...(type === 'drag' ? [] : [{ type: type === 'down' ? 'pointerDown' : 'pointerUp', button: 0 }]),
  ], { pointerType });
  return hands({
    name: 'Firefox', pid: child.pid, seen,
    evaluate: async expression => valueOf(await said(expression)),
    down: (code, more = {}) => press('keyDown', code, more),
    up: (code, more = {}) => press('keyUp', code, more),
    async write(text) {
      const isEnter = text === '\n';
      if (isEnter) await said('addEventListener("keydown", it => { globalThis.entered = it.defaultPrevented ? null : document.activeElement; }, { once: true }); 0');
      await act('keys', 'key', [...text].flatMap(it => ['keyDown', 'keyUp'].map(type => ({ type, value: it === '\n' ? KEYS.Enter : it }))));
      // A window that nobody sees is never the active one, and its buttons don't do what Enter does to them in one that is.
      if (isEnter) await said('if (globalThis.entered?.matches("button, summary")) entered.click(); 0');
    },
    control: code => chord(KEYS.ControlLeft, keyOf(code)),
    async presses(code, times, isShifted = false) {
      const strokes = Array.from({ length: times }, () => ['keyDown', 'keyUp'].map(type => ({ type, value: keyOf(code) }))).flat(), shift = type => (isShifted ? [{ type, value: KEYS.ShiftLeft }] : []);
      if (times) await act('keys', 'key', [...shift('keyDown'), ...strokes, ...shift('keyUp')]);
    },
    tabBack: () => chord(KEYS.ShiftLeft, KEYS.Tab),
    mouse: pointer('mouse', 'mouse'),
    touch: pointer('finger', 'touch'),
    async choose(selector, files) {
      const { sharedId } = await said(`document.querySelector(${JSON.stringify(selector)})`, 'root');
      await send('input.setFiles', { context, element: { sharedId }, files });
    },
    size: (to, scale = 1) => size(to ?? [width, height], scale),
    before: source => send('script.addPreloadScript', { functionDeclaration: `() => { ${source} }` }),
    async go(to) {
      await navigate('about:blank');
      await navigate(to);
    },
    async screenshot(path) { writeFileSync(path, Buffer.from((await send('browsingContext.captureScreenshot', { context })).data, 'base64')); },
    close: () => quit(child, profile),
  });
}

// What makes Firefox say that somebody has chosen a media feature.
const PREFERENCES = {
  'forced-colors: active': 'user_pref("browser.display.document_color_use", 2);\n',
  'prefers-reduced-motion: reduce': 'user_pref("ui.prefersReducedMotion", 1);\n',
  'prefers-color-scheme: dark': 'user_pref("ui.systemUsesDarkTheme", 1);\n',
};

function addressOf(child) {
  return new Promise((yes, no) => {
    let said = '';
    child.stderr.setEncoding('utf8').on('data', data => {
      said += data;
      const found = /WebDriver BiDi listening on (ws:\S+)/.exec(said);
      if (found) yes(found[1]);
    });
    child.once('exit', () => no(new Error(`Firefox ended: ${said}`)));
  });
}

// WebDriver's letters for keys; it has none for Caps Lock and the lights' other keys.
const KEYS = {
  ShiftLeft: '\uE008', ControlLeft: '\uE009', AltLeft: '\uE00A', Enter: '\uE007', Escape: '\uE00C', Tab: '\uE004', Space: ' ',
  Comma: ',', Period: '.', ArrowUp: '\uE013', ArrowDown: '\uE015', ArrowLeft: '\uE012', ArrowRight: '\uE014', Equal: '=', Minus: '-', End: '\uE010', Home: '\uE011', Delete: '\uE017',
};

const keyOf = code => KEYS[code] ?? /^(?:Key|Digit)(.)$/.exec(code)?.[1].toLowerCase();

// What chromium.mjs says of a key by the names of its protocol.
const EVENT = ({ modifiers = 0, autoRepeat = false, key }) => ({ metaKey: (modifiers & 4) !== 0, shiftKey: (modifiers & 8) !== 0, repeat: autoRepeat, ...(key && { key }) });

/** A value of WebDriver BiDi as one of JavaScript. */
function valueOf({ type, value }) {
  if (type === 'array') return value.map(valueOf);
  if (type === 'object') return Object.fromEntries(value.map(([name, it]) => [name, valueOf(it)]));
  return type === 'null' ? null : value;
}
