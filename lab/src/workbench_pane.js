// Files, and what the program makes of them.
import { ask } from './asking.js';
import { BOARD_BUTTONS, downloadFor } from './board_downloads.js';
import { answerOfBoards, keepLayout, layoutNameOf } from './board_opener.js';
import { isKeymapText } from './boards/from_kle.js';
import { byId, fill, make, save, tell } from './dom.js';
import { edited, files, onFile, put, undo, undoable } from './files.js';
import { keeping, workOf } from './keeping.js';
import { LongText } from './long_text.js';
import { explained, kbd48 } from './program.js';
import { EXIT } from './refusals.js';
import { runs } from './runs.js';
import { offerLink } from './share.js';
import { keepMade, putMade, takeFiles } from './taking.js';
import { Waveform } from './waveform.js';

// What is offered for a file by its ending; NAME is the file, STEM its name without the ending.
// Without a prototype, since an ending may be any word.
const OFFERS = {
  __proto__: null,
  asm: [['asm NAME'], ['board STEM.hex STEM.toml STEM.keys'], ['board STEM.hex STEM.toml STEM.keys --trace']],
  hex: [['list NAME'], ['step NAME 25'], ['board NAME STEM.toml STEM.keys'], ['cert NAME STEM.cert']],
  toml: [['compile NAME'], ['run NAME STEM.keys']],
  keys: [['run us84.toml NAME', 'expect us84.toml NAME'], ['trace us84.toml NAME']],
  cert: [['cert STEM.hex NAME']],
  script: [['debug us84.toml STEM.keys NAME'], ['probe STEM.hex STEM.toml STEM.keys NAME']],
  text: [['type us84.toml NAME']],
  vcd: [['capture NAME']],
  json: [['from_kle NAME'], ['from_kle --table NAME'], ['from_kle --wiring NAME']],
};
// What a command makes is kept under the file's name with this ending.
const MADE = { __proto__: null, asm: 'hex', compile: 'hex', list: 'asm', type: 'keys', trace: 'vcd', run: 'log', board: 'log', from_kle: 'toml' };
const FOR_BOARDS = new Set(['toml', 'hex']);
const INPUTS = /\.(asm|hex|toml|keys|cert|script|text|items|log|vcd|json|list|vil)$/;

export class WorkbenchPane {
  constructor() {
    this.select = byId('file');
    this.editor = byId('text');
    this.answer = new LongText(byId('answer'));
    this.other = new LongText(byId('other'));
    byId('stop-run').onclick = () => runs.stop?.();
    this.#fill('four_keys.asm');
    onFile(({ name, isNew }) => {
      if (isNew) this.#fill(this.select.value);
      if (name === this.select.value && this.editor.value !== files[name]) this.editor.value = files[name];
      const last = undoable();
      byId('undo').hidden = !last;
      byId('undo').title = last ? `Undo: ${last.why}` : '';
    });
    byId('undo').onclick = () => this.open(undo());
    byId('save-all').onclick = () => this.#saveAll();
    byId('forget').onclick = () => this.#forget();
    this.select.onchange = () => this.open(this.select.value);
    this.editor.oninput = () => put(this.select.value, this.editor.value);
    byId('new-file').onclick = () => this.#new();
    byId('open-file').onchange = ({ target }) => {
      const list = [...target.files];
      target.value = '';
      this.take(list);
    };
    byId('save-file').onclick = () => save(this.select.value, this.editor.value);
    byId('share').onclick = () => this.#share();
    byId('do').onclick = () => this.run(byId('words').value);
    byId('words').addEventListener('keydown', event => { if (event.key === 'Enter') this.run(byId('words').value); });
    byId('keep').onclick = async () => {
      const { name, text, said } = this.made;
      if (await (said ? keepLayout(name, said) : keepMade(name, text, 'This answer'))) this.open(name);
    };
    byId('download').onclick = () => save(this.made.name, this.made.said?.text ?? this.made.text);
    this.wave = new Waveform(byId('trace'), () => this.traced ?? { edges: [], bytes: [], cycle: 0 });
    this.open('four_keys.asm');
    byId('words').value = 'board four_keys.hex four_keys.toml four_keys.keys';
  }

  #fill(first) {
    fill(this.select, Object.keys(files).sort(), first);
  }

  shown() {
    if (byId('answer').textContent === '') this.run(byId('words').value);
    this.wave.draw();
  }

  /** Shows a file, and what may be done with it. */
  open(name) {
    this.#fill(name);
    this.select.value = name;
    this.editor.value = files[name];
    const [, stem, ending] = /^(.*?)\.?([^.]*)$/.exec(name);
    const own = ending === 'json' && isKeymapText(files[name]) ? [] : OFFERS[ending] ?? [];
    const offers = own.map(pair => pair.map(words => words.replaceAll('NAME', name).replaceAll('STEM', stem)));
    if (isBoardFile(name)) offers.push(...boardOffers(name));
    const commands = offers.filter(pair => pair.every(isPossible)).map(pair => offered(pair.join(' and '), () => {
      byId('words').value = pair[0];
      this.run(pair[0], pair[1]);
    }));
    const downloads = FOR_BOARDS.has(ending) ? Object.entries(BOARD_BUTTONS) : [];
    byId('offers').replaceChildren(...commands, ...downloads.map(([board, text]) => offered(text, () => downloadFor(board, name, byId('told')))));
  }

  /** Shows a command, and runs it. */
  show(text) {
    byId('words').value = text;
    this.run(text);
  }

  /** Runs one command, and a second one beside it. */
  run(text, beside) {
    const words = text.trim().split(/\s+/);
    if (words[0] === 'from_kle') {
      this.#fromKle(words);
      return;
    }
    if (this.#assemble(words)) return;
    const before = performance.now(), said = runs.run(words), other = beside ? runs.run(beside.trim().split(/\s+/)) : null;
    if (said instanceof Promise || other instanceof Promise) this.#later(words, Promise.all([said, other]), before);
    else this.#show(words, said, other, performance.now() - before);
  }

  // A long run: the page goes on meanwhile.
  async #later(words, answers, before) {
    tell(byId('told'), 'It runs ..');
    const [said, other] = await answers;
    if (said && other !== undefined) this.#show(words, said, other, performance.now() - before);
    else tell(byId('told'), 'The run was stopped.', false);
  }

  #show(words, said, other, took) {
    this.answer.show(said.text);
    byId('other').hidden = other === null;
    this.other.show(other?.text ?? '');
    this.#tell(words, said, other?.text ?? null, took);
    this.#trace(said);
    this.#keep(words, said);
  }

  // A layout of a board file, with what is told of it beside it.
  #fromKle(words) {
    const said = answerOfBoards(words.slice(1));
    this.answer.show(said.text || said.told.join('\n'));
    byId('other').hidden = said.status !== 0 || !said.told.length;
    this.other.show(said.told.join('\n'));
    tell(byId('told'), said.status === 0 ? `exit 0, ${said.told.length} remarks` : `exit ${said.status}: ${said.told[0]}`, said.status === 0 ? undefined : false);
    this.#trace(said);
    this.#made(said.shapes ? { name: layoutNameOf(words), said } : null);
  }

  // Makes the image of each source that was edited here, or has none yet, if the words name the image. Whether one was refused.
  #assemble(words) {
    for (const image of words.filter(word => word.endsWith('.hex'))) {
      const source = sourceOf(image);
      if (!(source in files) || (image in files && !edited.has(source))) continue;
      const said = kbd48(['asm', source]);
      if (said.exit !== EXIT.DONE) {
        this.answer.show(said.text);
        this.#tell(['asm', source], said, null, 0);
        return true;
      }
      if (files[image] !== said.text) putMade(image, said.text, source);
    }
    return false;
  }

  #tell(words, said, other, took) {
    const fault = said.exit === EXIT.DONE ? null : explained(said);
    if (fault) {
      tell(byId('told'), `exit ${said.exit}: ${fault.words}`, false);
      const name = fault.line && words.slice(1).find(word => kindOf(word) === fault.kind);
      if (name) this.#goTo(name, fault.line);
    } else if (other !== null) tell(byId('told'), other === said.text ? 'both print the same' : 'they differ', other === said.text);
    else tell(byId('told'), `exit ${said.exit}, ${said.bytes.length} bytes in ${took.toFixed(0)} ms`);
  }

  #goTo(name, line) {
    this.open(name);
    const lines = this.editor.value.split('\n'), start = lines.slice(0, line - 1).reduce((sum, it) => sum + it.length + 1, 0);
    this.editor.setSelectionRange(start, start + (lines[line - 1]?.length ?? 0));
    this.editor.scrollTop = this.editor.scrollHeight * Math.max(0, line - 5) / lines.length;
  }

  #trace(said) {
    byId('trace').hidden = !said.traced;
    if (!said.traced) return;
    this.traced = said.traced;
    this.wave.back = 0;
    this.wave.draw();
  }

  #keep(words, said) {
    // A log is called as its key file is, anything else as the file that it is made of.
    const ending = MADE[words[0]], named = words.find(word => word.endsWith('.keys')) ?? words[1], stem = named?.replace(/\.[^.]*$/, '');
    this.#made(said.exit === EXIT.DONE && ending ? { name: `${stem}.${words.includes('--trace') ? 'vcd' : ending}`, text: said.text } : null);
  }

  // What a command made, which may be kept here or downloaded; or nothing.
  #made(made) {
    this.made = made;
    byId('keep').hidden = byId('download').hidden = !made;
    if (!made) return;
    byId('keep').textContent = `Keep as ${made.name}`;
    byId('download').textContent = `Download ${made.name}`;
  }

  #new() {
    const taken = name => name in files;
    let number = 1;
    while (taken(`own${number}.asm`)) number++;
    put(`own${number}.asm`, '; a program of your own\n');
    this.open(`own${number}.asm`);
    this.editor.focus();
  }

  /** Takes files of the user's system. */
  async take(list) {
    tell(byId('shared'), '');
    const names = await takeFiles(list, byId('shared'));
    if (names.length) this.open(names.at(-1));
  }

  #saveAll() {
    const names = [...edited].sort();
    if (!names.length) tell(byId('shared'), 'No file was changed yet.', false);
    else {
      save('kbd48_work.json', workOf(names));
      tell(byId('shared'), `kbd48_work.json has ${names.length === 1 ? 'your file' : `your ${names.length} files`}.`);
    }
  }

  async #forget() {
    if (!await ask('Forget all that you have changed, in this window and in this browser? No undo brings it back.', 'Forget all', 'Keep it')) return;
    keeping.forget();
    location.replace(location.href.split('#')[0]);
    location.reload();
  }

  // The file that is open, with what its command names beside it: sources too, of which the images are made.
  async #share() {
    const command = byId('words').value, words = command.split(/\s+/), sources = words.filter(word => word.endsWith('.hex')).map(sourceOf);
    const names = [...new Set([this.select.value, ...words, ...sources])].filter(name => name in files);
    await offerLink(byId('shared'), { files: Object.fromEntries(names.map(name => [name, files[name]])), open: this.select.value, command });
  }

  /** Shows the file and the command of a link, and what the command prints. If a file is refused, the link's file stays open. */
  showShared({ open, command }) {
    if (command !== null) this.show(command);
    this.open(open);
  }
}

const KINDS = { __proto__: null, asm: 'asm', hex: 'hex', toml: 'layout', keys: 'keys', script: 'script', cert: 'cert' };
const kindOf = name => KINDS[name.split('.').at(-1)];

// An image is there if its source is.
const sourceOf = image => image.replace(/hex$/, 'asm');
const isPossible = words => words.split(' ').filter(word => INPUTS.test(word)).every(name => name in files || (name.endsWith('.hex') && sourceOf(name) in files));

const offered = (textContent, act) => Object.assign(make('button', { type: 'button', textContent }), { onclick: act });

// A keymap is offered for each board that is here, and a board with each keymap.
const isBoardFile = name => /\.(json|vil)$/.test(name);

function boardOffers(name) {
  const others = Object.keys(files).filter(other => other !== name && isBoardFile(other)), isMap = isKeymapText(files[name]);
  return others.filter(other => isKeymapText(files[other]) !== isMap).map(other => [`from_kle ${isMap ? `${other} ${name}` : `${name} ${other}`}`]);
}
