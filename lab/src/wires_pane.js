// What passes between keyboard and PC while one types, and what the PC says.
import { byId, fill, hex, make, setText, tell } from './dom.js';
import { files, named, onFile, replace } from './files.js';
import { CLOCK, DATA } from './wires.js';
import { CapturePane, isCaptureName } from './capture_pane.js';
import { Lines } from './lines.js';
import { CYCLES_OF_A_MS, FIRST_STAMP } from './times.js';
import { explained } from './program.js';
import { runs } from './runs.js';
import { Waveform, pullersOf } from './waveform.js';

const LIVE = 'what I type';
const STEP = 160; // pixels
const BITS = [...Array.from({ length: 8 }, (_, bit) => `data bit ${bit + 1}`), 'the parity bit'];
const PULLERS = { keyboard: 'the keyboard', host: 'the PC' };
// Each command with the bytes that the PC writes: to port 60h, or to 64h.
const COMMANDS = [
  ['ED 07: all lights', [0x60, 0xED], [0x60, 0x07]], ['ED 00: no light', [0x60, 0xED], [0x60, 0x00]],
  ['F3 00: fast repeat', [0x60, 0xF3], [0x60, 0x00]], ['F3 7F: slow repeat', [0x60, 0xF3], [0x60, 0x7F]],
  ['FF: reset', [0x60, 0xFF]], ['EE: echo', [0x60, 0xEE]], ['FE: resend', [0x60, 0xFE]], ['AD: keyboard off', [0x64, 0xAD]],
  ['AE: keyboard on', [0x64, 0xAE]], ['D1 DF: output port', [0x64, 0xD1], [0x60, 0xDF]],
];

export class WiresPane {
  /** `live()` answers the keyboard that runs, `opened()` its layout: { name, text }. */
  constructor(live, opened) {
    Object.assign(this, { element: byId('wires'), live, opened, still: null });
    this.bytes = new Lines(byId('bytes'), ({ begin, sender, byte }) => `${at(begin)}  ${sender === 'host' ? 'PC → keyboard' : 'keyboard → PC'}  ${hex(byte)}`);
    this.log = new Lines(byId('log'), entry => (typeof entry === 'string' ? entry : `${at(entry.cycle)}  ${entry.words}`));
    this.wave = new Waveform(byId('wave'), live);
    this.capture = new CapturePane({ wave: this.wave, opened, show: name => this.#choose(name ?? LIVE) });
    for (const [words, ...bytes] of COMMANDS) {
      const button = make('button', { type: 'button', textContent: words });
      button.onclick = () => { for (const [port, byte] of bytes) live().order(port, byte); };
      byId('commands').append(button, ' ');
    }
    for (const port of [0x60, 0x64]) byId(`write${hex(port)}`).onclick = () => this.#any(port);
    byId('read60').onclick = () => live().read60();
    byId('read64').onclick = () => live().status();
    byId('masked').onchange = event => live().mask(event.target.checked);
    byId('pause').onclick = ({ currentTarget: button }) => {
      const paused = button.getAttribute('aria-pressed') !== 'true';
      button.setAttribute('aria-pressed', String(paused));
      this.wave.paused = paused;
    };
    byId('zoom-in').onclick = () => this.wave.zoomBy(2);
    byId('zoom-out').onclick = () => this.wave.zoomBy(0.5);
    byId('wave-back').onclick = () => this.wave.move(STEP);
    byId('wave-on').onclick = () => this.wave.move(-STEP);
    this.#list();
    onFile(({ isNew }) => { if (isNew) this.#list(); });
    byId('shown').onchange = ({ target }) => this.#show(target.value);
    byId('session').onclick = () => {
      const file = live().keyFile();
      replace('session.keys', file.keys, 'this session took its place');
      tell(byId('judged'), `session.keys is in the workbench${file.left ? `; it has ${firstPart(file)}` : ''}`);
    };
    byId('judge').onclick = () => this.#judge();
    byId('noisy-bit').append(...BITS.map((words, at) => new Option(words, at + 1)));
    byId('noise').onclick = () => live().flip(Number(byId('noisy-bit').value));
  }

  /** Another keyboard runs. A capture stays in sight, without what is beside it: that was the other keyboard. */
  begin() {
    if (this.capture.name === null) this.#choose(LIVE);
    else this.capture.right.hide();
  }

  // What may be shown: what one types, the runs of key files, and captures.
  #list() {
    const captures = new Set([...Object.keys(files).filter(isCaptureName).sort(), ...this.capture.names]);
    fill(byId('shown'), [LIVE, ...named('.keys'), ...captures], LIVE);
  }

  #choose(name) {
    this.#list();
    byId('shown').value = name;
    this.#show(name);
  }

  #any(port) {
    const text = byId('any-byte').value;
    if (/^[0-9A-Fa-f]{2}$/.test(text)) this.live().order(port, Number.parseInt(text, 16));
    else tell(byId('judged'), `${text || 'nothing'} is no byte of two hexadecimal digits`, false);
  }

  // The run of a key file on the layout that is open: its wires, bytes and log, as the program prints them.
  async #show(keys) {
    this.still = null;
    this.bytes.clear();
    this.log.clear();
    this.wave.show(null);
    const isCapture = this.capture.has(keys);
    this.capture.open(isCapture ? keys : null);
    byId('pause').disabled = keys !== LIVE;
    byId('pause').setAttribute('aria-pressed', 'false');
    for (const id of ['pullers', 'wire-lists', 'clock-text']) byId(id).hidden = isCapture;
    if (keys === LIVE || isCapture) return;
    const { name, text } = this.opened(), layout = { [name]: text };
    const trace = await runs.run(['trace', name, keys], layout), run = trace && await runs.run(['run', name, keys], layout);
    if (!run || byId('shown').value !== keys) return;
    if (trace.exit !== 0) tell(byId('judged'), `${keys}: ${explained(trace)?.words}`, false);
    else {
      const { edges, bytes, cycle } = trace.traced;
      this.still = { bytes, lines: run.text.trimEnd().split('\n').map(line => `tick ${line}`) };
      this.wave.show({ edges, bytes, cycle });
    }
  }

  // What was done so far as a key file, under the model and under the firmware.
  async #judge() {
    const { name, text } = this.opened(), file = this.live().keyFile(), given = { 'session.keys': file.keys, [name]: text };
    tell(byId('judged'), 'It runs ..');
    const run = await runs.run(['run', name, 'session.keys'], given), expect = run && await runs.run(['expect', name, 'session.keys'], given);
    if (!expect) tell(byId('judged'), 'The run was stopped.', false);
    else if (run.exit !== 0) tell(byId('judged'), `the session is no key file: ${explained(run)?.words}`, false);
    else if (run.text === expect.text) tell(byId('judged'), `run and expect print the same ${run.text.split('\n').length - 1} lines of ${file.left ? firstPart(file) : 'this session'}`, true);
    else tell(byId('judged'), 'run and expect differ', false);
  }

  #pulled() {
    if (this.still) return 'a run of a key file, in which that isn\'t said';
    const { levels, pulls } = this.live(), said = (wire, name) => {
      const sides = pullersOf(wire, pulls).map(side => PULLERS[side]).join(' and ');
      return `${name}: ${levels & wire ? 'high' : `low by ${sides}`}`;
    };
    return `${said(CLOCK, 'clock')}; ${said(DATA, 'data')}`;
  }

  draw() {
    const { bytes, items, stamp } = this.live();
    this.wave.draw();
    setText(byId('clock-text'), `${timeOf(stamp)} of keyboard time`);
    setText(byId('pulled'), this.#pulled());
    this.bytes.show(this.still?.bytes ?? bytes);
    this.log.show(this.still?.lines ?? items);
    this.bytes.scroll();
    this.log.scroll();
  }
}

const inWords = ({ events, seconds }) => `${events} event${events === 1 ? '' : 's'} and ${seconds.toFixed(1)} seconds`;

// What the key file of a long session has, and what it leaves out.
const firstPart = ({ taken, left }) => `the first ${inWords(taken)} of this session, since a key file has at most 65,536 events and 600 seconds; the last ${inWords(left)} are left out`;

// Whole seconds at full speed: each text that changes costs a picture.
const timeOf = stamp => `${(stamp / CYCLES_OF_A_MS / 1000).toFixed(byId('speed').value === '1' ? 0 : 4)} s`;

const at = cycle => `${((cycle - FIRST_STAMP) / CYCLES_OF_A_MS).toFixed(2).padStart(10)} ms`;
