// usage: node instructions.mjs LAB.html: each instruction of docs/INSTRUCTIONS.md, run by the proved program of the page. It takes as
// many cycles as its row says, and changes the flags that the row names, each in some state, and no other in any state.
import assert from 'node:assert/strict';
import { readFileSync } from 'node:fs';
import { gunzipSync } from 'node:zlib';
import { Program } from '../kbd48.mjs';

const html = readFileSync(process.argv[2], 'utf8'), program = await Program.load(gunzipSync(Buffer.from(/id="program-module">(.*?)<\/script>/s.exec(html)[1], 'base64')));
const text = readFileSync(new URL('../../docs/INSTRUCTIONS.md', import.meta.url), 'utf8');

// What is done before an instruction, so that registers and flags have other values each time.
const REGISTERS = ['MOV R0,#2FH', 'MOV R1,#3FH', 'MOV @R0,#0FH', 'MOV @R1,#1FH', 'MOV R7,#0FH'], FLAGS = ['MOV A,#0FFH', 'ADD A,#1', 'CPL F0', 'CPL F1'];
const OVERFLOW = ['MOV A,#0FFH', 'MOV T,A', 'STRT T', ...Array.from({ length: 80 }, () => 'NOP'), 'STOP TCNT'];
const SETUPS = [[], [...REGISTERS, 'MOV A,#0F1H'], [...REGISTERS, ...FLAGS, 'MOV A,#0F1H'], [...REGISTERS, ...FLAGS, 'SEL RB1', 'MOV A,#0F1H'], ['MOV A,#9AH'], OVERFLOW];
// These return from a subroutine; the flags are changed within it.
const RETURNS = SETUPS.map(setup => [...setup, 'CALL sub', 'sub: CPL C', 'CPL F0', ...(setup.includes('SEL RB1') ? ['SEL RB0'] : ['SEL RB1']), ...(setup.includes('ADD A,#1') ? ['ADD A,#0'] : ['MOV A,#0FH', 'ADD A,#1'])]);
const REGISTER_NAMES = ['R0', 'R1', 'R7'], NUMBERS = ['#0', '#1', '#37H', '#0FFH'];

// The forms of an instruction with registers, numbers and a label. A jump goes to the place after it, whether it jumps or not.
function formsOf(instruction) {
  const whole = /^J\w+$|^DJNZ/.test(instruction) && !/label/.test(instruction) ? `${instruction} label` : instruction;
  const each = (forms, from, to) => forms.flatMap(form => (form.includes(from) ? to.map(it => form.replace(from, it)) : [form]));
  return [[/@Rr/, ['@R0', '@R1']], [/Rr/, REGISTER_NAMES], [/#n/, NUMBERS], [/label/, ['next']]].reduce((forms, [from, to]) => each(forms, from.source, to), [whole]);
}

const FIELDS = { C: /psw (\w+)/, F1: /f1 (\w)/, 'the timer flag': /tf (\w)/, cycles: /cycles (\d+)/ };

/** The flags and the cycles after so many steps. */
function stateAfter(image, steps) {
  const said = program.run(['step', 'own.hex', String(steps)], { 'own.hex': image });
  assert.equal(said.exit, 0, said.text);
  const [psw, f1, flag, cycles] = Object.values(FIELDS).map(field => field.exec(said.text)[1]), bits = Number.parseInt(psw, 16);
  return { flags: { C: bits >> 7 & 1, AC: bits >> 6 & 1, F0: bits >> 5 & 1, 'the bank': bits >> 4 & 1, 'the stack pointer': bits & 7, F1: f1, 'the timer flag': flag }, cycles: Number(cycles) };
}

// The flags that an instruction changes after this setup, and its cycles.
function changesOf(setup, form) {
  const source = [...setup, form, 'next: NOP'].map(line => (/^\w+:/.test(line) ? line : ` ${line}`));
  const made = program.run(['asm', 'own.asm'], { 'own.asm': `${source.join('\n')}\n` });
  assert.equal(made.exit, 0, `${form}: ${made.text}`);
  const [before, after] = [setup.length, setup.length + 1].map(steps => stateAfter(made.text, steps));
  return { changed: Object.keys(before.flags).filter(flag => before.flags[flag] !== after.flags[flag]), cycles: after.cycles - before.cycles };
}

// The flags that a row names for an instruction.
function namedIn(flags, instruction) {
  if (flags === 'none') return [];
  if (flags === 'that flag') return [instruction.split(' ')[1]];
  return flags.replace(' is cleared', '').split(', ').map(it => it.trim());
}

const rows = [...text.matchAll(/^\| (`.*) \| .* \| ([12]) \| (.*) \|$/gm)];
let forms = 0;
for (const [, first, cycles, flags] of rows) {
  const named = [...first.matchAll(/`([^`]+)`/g)].map(([, it]) => it), instructions = /` to `/.test(first) ? Array.from({ length: 8 }, (_, bit) => `JB${bit}`) : named;
  for (const instruction of instructions) {
    const seen = new Set();
    for (const form of formsOf(instruction)) {
      forms++;
      for (const setup of /^RETR?$/.test(instruction) ? RETURNS : SETUPS) {
        const { changed, cycles: took } = changesOf(setup, form);
        assert.equal(took, Number(cycles), `${form}: cycles`);
        for (const flag of changed) seen.add(flag);
      }
    }
    assert.deepEqual([...seen].sort(), namedIn(flags, instruction).sort(), `${instruction}: flags`);
  }
}
assert.ok(rows.length > 50 && forms > 150, `${rows.length} rows, ${forms} forms`);
console.log(`docs/INSTRUCTIONS.md: ${rows.length} rows, ${forms} forms of instructions, with the cycles and the flags that they change`);
