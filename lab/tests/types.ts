// Every call of kbd48.d.ts as a strict TypeScript program makes it. It is compiled, and not run; what must be refused has a
// line above it that says so, and a compiler that takes it fails.
import { Help, Item, Kbd48Error, Keyboard, Program, Status, Stop, TICK, Trapped } from 'kbd48';
import type { Answer, HelpState, KeysRan, Processor, Pulls, Registers, Said, StatusNumber, Stopped } from '../kbd48.mjs';

export async function everyCall(keyboardModule: Uint8Array, layout: Uint8Array, hex: Uint8Array): Promise<string[]> {
  const keyboard: Keyboard = await Keyboard.load(keyboardModule), lines: string[] = [];
  keyboard.openLayout(layout);
  keyboard.openHex(hex);
  keyboard.openReadyLayout(layout);
  keyboard.openReadyHex(hex);
  keyboard.openSample();
  keyboard.powerOn();
  keyboard.powerOn(0xA5);
  const version: number = keyboard.version(), place: number = keyboard.sampleKey('a'), same: number = keyboard.layoutKey(layout, 'a');
  const pressed: StatusNumber = keyboard.key(place, true);
  if (pressed === Status.FULL) keyboard.step();
  const ran: StatusNumber = keyboard.run(400_000), watched: StatusNumber = keyboard.run(400_000, true);
  const stopped: Stopped = keyboard.runTo(Stop.RISE | Stop.ITEM | Stop.WIRES | Stop.COUNTER, 1000, { steps: 10, at: TICK });
  const changed: StatusNumber = keyboard.watch(1000), pushed: StatusNumber = keyboard.queueKey(same, false, keyboard.cycle() + 10);
  const keys: KeysRan = keyboard.runKeys(1000, true);
  keyboard.releaseAll();
  keyboard.releaseAll(keyboard.cycle());
  lines.push(`${version} ${ran} ${watched} ${stopped.met} ${changed} ${pushed} ${keys.rises} ${keyboard.queued()} ${keyboard.passed}`);
  keyboard.queue = keyboard.queue.slice();
  keyboard.loadQueue(keyboard.saveQueue());
  const written: StatusNumber = keyboard.write(0x60, 0xED), byte: number = keyboard.read60(), status: number = keyboard.status();
  keyboard.bios(true);
  keyboard.flip(9);
  const word: number | null = keyboard.take(), next: Said | null = keyboard.next();
  for (const { cycle, kind, value } of keyboard.items()) if (kind === Item.WORD) lines.push(`${cycle} ${value.toString(16)}`);
  if (word !== null && next !== null) lines.push(`${word} ${next.kind}`);
  const up: boolean = keyboard.interrupt(), registers: Registers = keyboard.look(), inside: Processor = keyboard.inside();
  const pulls: Pulls = keyboard.pulls(), { edges, words } = keyboard.waiting(), stuck: { counter: number; byte: number } = keyboard.stuck;
  const counts: 'off' | 'cycles' | 'falls of T1' = inside.counts, carry: boolean = inside.carry;
  lines.push([written, byte, status, up, registers.commandByte, pulls.keyboard | pulls.controller, edges, words, stuck.counter, counts, carry,
    keyboard.lights(), keyboard.wires(), keyboard.rises(), keyboard.lost(), keyboard.column(3), keyboard.cell(0x20)].join());
  const copy: Keyboard = keyboard.copy();
  keyboard.copyTo(copy);
  const saved: Uint8Array = keyboard.save();
  copy.load(saved);
  copy.free();
  keyboard.close();
  return lines;
}

export function helped(keyboard: Keyboard, byte: number): void {
  const help: Help = new Help(keyboard, { seabios: true, bochs: true }), before: HelpState = { ...help };
  const written: StatusNumber = keyboard.write(0x60, help.write(0x60, byte));
  if (written === Status.FULL) Object.assign(help, before);
  const begins: boolean = help.read(keyboard.read60());
  if (begins) keyboard.run(400_000, true);
  new Help(keyboard, before).read(byte);
}

export async function wholeProgram(programModule: Uint8Array): Promise<Answer> {
  const program: Program = await Program.load(programModule);
  const answer: Answer = program.run(['asm', 'a.asm'], { 'a.asm': 'NOP\n', 'b.hex': new Uint8Array() });
  return answer.exit === 0 ? answer : program.run(['words', '1C']);
}

export function faults(error: unknown): string {
  if (error instanceof Trapped) return error.message;
  return error instanceof Kbd48Error && error.status === Status.BAD_TEXT ? `${error.position}: ${error.number}` : 'none of ours';
}

export function refused(keyboard: Keyboard, program: Program): void {
  // @ts-expect-error there is no such port
  keyboard.write(0x61, 0);
  // @ts-expect-error no such BIOS is helped
  new Help(keyboard, { award: true });
  // @ts-expect-error a place is a number
  keyboard.key('a', true);
  // @ts-expect-error what a look shows can't be changed
  keyboard.inside().a = 1;
  // @ts-expect-error a word may be missing
  keyboard.take().toString();
  // @ts-expect-error a layout is bytes
  keyboard.openLayout('format = 1');
  // @ts-expect-error words are a list
  program.run('asm a.asm');
}
