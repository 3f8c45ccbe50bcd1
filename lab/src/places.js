// The keys of a layout file, as far as they are drawn, and where the 84 keys of the AT lie on its board. Whether a layout is
// right says the program alone.

/** The entries of a TOML layout: a table [[key]] each, with its fields. */
export function keysOf(text) {
  const keys = [];
  let entry = null;
  for (const line of text.split(/\r?\n/)) {
    if (/^\s*\[\[\s*key\s*\]\]/.test(line)) keys.push(entry = {});
    else if (/^\s*\[/.test(line)) entry = null;
    const field = /^\s*(\w+)\s*=\s*(?:"([^"]*)"|'([^']*)'|(\w+))/.exec(line);
    if (entry && field) entry[field[1]] = field[2] ?? field[3] ?? (/^\d/.test(field[4]) ? Number(field[4]) : field[4] === 'true');
  }
  return keys.filter(key => key.key !== undefined && key.column !== undefined && key.row !== undefined)
    .map(key => ({ name: key.key, place: 8 * key.column + key.row, sends: key.sends ?? key.key, fn: key.fn === true, fnSends: key.fn_sends }));
}

// Rows of keys, each NAME:WIDTH:HEIGHT, and gaps as numbers.
const ROWS = [
  'f1 f2 0.5 grave 1 2 3 4 5 6 7 8 9 0 minus equal backslash backspace 0.5 esc num scroll sysreq',
  'f3 f4 0.5 tab:1.5 q w e r t y u i o p lbracket rbracket enter:1.5:2 0.5 kp7 kp8 kp9 prtsc',
  'f5 f6 0.5 ctrl:1.75 a s d f g h j k l semicolon quote 2.75 kp4 kp5 kp6 kpminus',
  'f7 f8 0.5 lshift:2.25 z x c v b n m comma period slash rshift:2.75 0.5 kp1 kp2 kp3 kpplus:1:2',
  'f9 f10 0.5 alt:1.5 1.5 space:9 1.5 caps:1.5 0.5 kp0:2 kpdot',
];
export const WIDTH = 22.5, HEIGHT = ROWS.length;

/** Where each of the 84 keys lies, in units of a key. */
export const SHAPES = Object.fromEntries(ROWS.flatMap((row, y) => {
  let x = 0.25;
  const shapes = [];
  for (const word of row.split(' ')) {
    if (/^\d*\.\d+$/.test(word)) x += Number(word);
    else {
      const [name, width = 1, height = 1] = word.split(':');
      shapes.push([name, { x, y, width: Number(width), height: Number(height) }]);
      x += Number(width);
    }
  }
  return shapes;
}));

const LEGENDS = {
  grave: '~\n`', 1: '!\n1', 2: '@\n2', 3: '#\n3', 4: '$\n4', 5: '%\n5', 6: '^\n6', 7: '&\n7', 8: '*\n8', 9: '(\n9', 0: ')\n0',
  minus: '_\n-', equal: '+\n=', backslash: '|\n\\', lbracket: '{\n[', rbracket: '}\n]', semicolon: ':\n;', quote: '"\n\'',
  comma: '<\n,', period: '>\n.', slash: '?\n/', backspace: '←', tab: 'Tab', ctrl: 'Ctrl', lshift: 'Shift', rshift: 'Shift',
  enter: 'Enter', alt: 'Alt', caps: 'Caps\nLock', space: 'Space', esc: 'Esc', num: 'Num\nLock', scroll: 'Scroll\nLock',
  sysreq: 'Sys\nReq', prtsc: 'PrtSc\n*', kp7: '7\nHome', kp8: '8\n↑', kp9: '9\nPgUp', kp4: '4\n←', kp5: '5', kp6: '6\n→',
  kpminus: '-', kp1: '1\nEnd', kp2: '2\n↓', kp3: '3\nPgDn', kpplus: '+', kp0: '0\nIns', kpdot: '.\nDel',
};

/** What stands on a key that sends this. */
export const legendOf = name => LEGENDS[name] ?? name.toUpperCase();

/** A legend of a board's own; of a key with a character also what the PC makes of it, if that is another. */
export function ownLegend(own, name) {
  const [theirs, ours] = [own, legendOf(name)].map(it => [...it.toUpperCase().replace(/\s/g, '')].sort().join(''));
  return theirs === ours || !isWhite(name) ? own : `${own}\n→ ${legendOf(name).replace('\n', ' ')}`;
}

/** The corners of a key as it is drawn, in units of a key. */
export function cornersOf({ x, y, width, height, turned }) {
  const corners = [[x, y], [x + width, y], [x, y + height], [x + width, y + height]];
  if (!turned) return corners.map(([right, down]) => ({ x: right, y: down }));
  const angle = turned.by * Math.PI / 180, [cos, sin] = [Math.cos(angle), Math.sin(angle)];
  return corners.map(([right, down]) => [right - turned.x, down - turned.y]).map(([right, down]) => ({ x: turned.x + right * cos - down * sin, y: turned.y + right * sin + down * cos }));
}

const SPOKEN = {
  grave: 'grave', minus: 'minus', equal: 'equals', backslash: 'backslash', lbracket: 'left bracket', rbracket: 'right bracket', semicolon: 'semicolon',
  quote: 'quote', comma: 'comma', period: 'period', slash: 'slash', backspace: 'backspace', lshift: 'left shift', rshift: 'right shift', caps: 'caps lock',
  num: 'num lock', scroll: 'scroll lock', esc: 'escape', sysreq: 'sys req', prtsc: 'print screen', kpminus: 'keypad minus', kpplus: 'keypad plus', kpdot: 'keypad point',
};

/** What a screen reader says of a key that sends this. */
export const saidOfKey = name => SPOKEN[name] ?? name.replace(/^kp/, 'keypad ');

export const isWhite = name => /^([a-z0-9]|grave|minus|equal|backslash|[lr]bracket|semicolon|quote|comma|period|slash|space)$/.test(name);

const CODES = {
  Backquote: 'grave', Minus: 'minus', Equal: 'equal', Backslash: 'backslash', IntlBackslash: 'backslash', Backspace: 'backspace',
  Tab: 'tab', BracketLeft: 'lbracket', BracketRight: 'rbracket', ControlLeft: 'ctrl', ControlRight: 'ctrl', Semicolon: 'semicolon',
  Quote: 'quote', Enter: 'enter', NumpadEnter: 'enter', ShiftLeft: 'lshift', ShiftRight: 'rshift', Comma: 'comma',
  Period: 'period', Slash: 'slash', NumpadDivide: 'slash', AltLeft: 'alt', AltRight: 'alt', Space: 'space', CapsLock: 'caps',
  Escape: 'esc', NumLock: 'num', ScrollLock: 'scroll', Pause: 'sysreq', PrintScreen: 'prtsc', NumpadMultiply: 'prtsc',
  NumpadSubtract: 'kpminus', NumpadAdd: 'kpplus', NumpadDecimal: 'kpdot', Home: 'kp7', ArrowUp: 'kp8', PageUp: 'kp9',
  ArrowLeft: 'kp4', ArrowRight: 'kp6', End: 'kp1', ArrowDown: 'kp2', PageDown: 'kp3', Insert: 'kp0', Delete: 'kpdot',
};

/** The AT's key for a browser's `event.code`, or undefined. */
export function keyOfCode(code) {
  if (CODES[code]) return CODES[code];
  const found = /^(?:Key([A-Z])|Digit(\d)|(F\d\d?)|Numpad(\d))$/.exec(code);
  if (!found) return undefined;
  const [, letter, digit, f, pad] = found;
  return pad ? `kp${pad}` : (letter ?? digit ?? f).toLowerCase();
}
