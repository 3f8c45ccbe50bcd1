/** The statuses of `c/kbd48.h`. */
export declare const Status: Readonly<{
  DONE: 0; NOT_OPEN: 1; NO_MEMORY: 2; BAD_TEXT: 3; TOO_LONG: 4; NO_SUCH_PLACE: 5; NO_SUCH_PORT: 6; FULL: 7; STUCK: 8;
  EARLY: 9; OVER: 10; NO_WORD: 11; ROSE: 12; NO_SUCH_CELL: 13; NOTHING_SAID: 14; LOST: 15; REPEATED: 16; KEY_DUE: 17;
  NO_SUCH_KEY: 18; NO_SUCH_BIT: 19; BAD_SIZE: 20; NOT_SAVED: 21; OTHER_VERSION: 22; BAD_STATE: 23;
}>;
export type StatusNumber = (typeof Status)[keyof typeof Status];

/** The kinds of items, as `c/kbd48.h` has them. */
export declare const Item: Readonly<{
  PORT: 0; READ: 1; WORD: 2; BEEP: 3; OVERRUN: 4; LIGHTS: 5; TAKEN: 6; TAKEN_NONE: 7; STATUS: 8; OUTPUT: 9; PULSE: 10;
  BROKE: 11; PAUSE: 12; RESUME: 13; PRINT: 14; BOOT: 15; SYS_MAKE: 16; SYS_BREAK: 17; SENT: 18; GIVEN: 19;
}>;

/** What `runTo` may be asked to stop for: a sum of these. */
export declare const Stop: Readonly<{ RISE: 1; ITEM: 2; WIRES: 4; COUNTER: 8 }>;

/** The program counter at which a tick of a layout's firmware begins. */
export declare const TICK: 7;

/** How a run with the queue ended: how many cycles passed, and how often the interrupt line rose. */
export interface KeysRan {
  readonly status: StatusNumber;
  readonly passed: number;
  readonly rises: number;
}

/** How a run to something ended: what its last step did of the mask, 0 if a limit ended it, and how many cycles passed. */
export interface Stopped {
  readonly status: StatusNumber;
  readonly met: number;
  readonly passed: number;
}

/** What happened: the cycle in which it did, its kind, and its byte or word, or 0. */
export interface Said {
  readonly cycle: number;
  readonly kind: (typeof Item)[keyof typeof Item];
  readonly value: number;
}

/** Which wires each side pulls: 1 the clock, 2 data. */
export interface Pulls {
  readonly keyboard: number;
  readonly controller: number;
}

/** What ports 0x64 and 0x60 would read, the command byte, and the output port. */
export interface Registers {
  readonly status: number;
  readonly output: number;
  readonly commandByte: number;
  readonly outputPort: number;
}

/** The keyboard's processor, an 8049. */
export interface Processor {
  readonly counter: number;
  readonly byte: number;
  readonly a: number;
  readonly carry: boolean;
  readonly halfCarry: boolean;
  readonly f0: boolean;
  readonly f1: boolean;
  readonly registerBank: boolean;
  readonly memoryBank: boolean;
  readonly stack: number;
  readonly t: number;
  readonly prescaler: number;
  readonly counts: 'off' | 'cycles' | 'falls of T1';
  readonly timerFlag: boolean;
  readonly externalOn: boolean;
  readonly timerOn: boolean;
  readonly request: boolean;
  readonly service: boolean;
  readonly p1: number;
  readonly p2: number;
  readonly bus: number;
}

/** A call that was refused. For a text with a fault: the entry or line (from 1, entry 0 is the whole), and the rule. */
export declare class Kbd48Error extends Error {
  readonly status: StatusNumber;
  readonly position: number;
  readonly number: number;
}

/** The module trapped, and is dropped. */
export declare class Trapped extends Error {}

/** One keyboard. A cycle is 2.5 microseconds; a place is eight times the column and the row, 0 to 95. */
export declare class Keyboard {
  static load(module: BufferSource | WebAssembly.Module): Promise<Keyboard>;
  openLayout(text: Uint8Array): void;
  openHex(text: Uint8Array): void;
  openSample(): void;
  openReadyLayout(text: Uint8Array): void;
  openReadyHex(text: Uint8Array): void;
  openReadySample(): void;
  powerOn(fill?: number): void;
  layoutKey(text: Uint8Array, name: string): number;
  sampleKey(name: string): number;
  version(): number;
  close(): void;
  free(): void;
  copy(): Keyboard;
  copyTo(other: Keyboard): void;
  save(): Uint8Array;
  load(bytes: Uint8Array): void;
  saveQueue(): Uint8Array;
  loadQueue(bytes: Uint8Array): void;
  key(place: number, down: boolean): StatusNumber;
  run(cycles: number, watched?: boolean): StatusNumber;
  step(): StatusNumber;
  runTo(mask: number, cycles: number, limits?: { steps?: number; at?: number }): Stopped;
  watch(cycles: number): StatusNumber;
  queueKey(place: number, down: boolean, cycle?: number): StatusNumber;
  releaseAll(cycle?: number): void;
  queued(): number;
  queue: Uint8Array;
  runKeys(cycles: number, watched?: boolean): KeysRan;
  readonly passed: number;
  readonly stuck: { counter: number; byte: number };
  write(port: 0x60 | 0x64, byte: number): StatusNumber;
  read60(): number;
  status(): number;
  bios(on: boolean): void;
  flip(bit: number): void;
  take(): number | null;
  next(): Said | null;
  items(): Generator<Said, void>;
  interrupt(): boolean;
  lights(): number;
  wires(): number;
  rises(): number;
  lost(): number;
  cycle(): number;
  look(): Registers;
  waiting(): { edges: number; words: number };
  column(number: number): number;
  inside(): Processor;
  pulls(): Pulls;
  cell(number: number): number;
}

/** What a `Help` has: the two options, and what is remembered. */
export interface HelpState {
  seabios: boolean;
  bochs: boolean;
  parameter: boolean;
  last: number;
}

/** Help for two BIOSes. What the guest sees with it isn't the machine's. Keep one for each keyboard, and its state beside a save. */
export declare class Help implements HelpState {
  constructor(keyboard: Keyboard, state?: Partial<HelpState>);
  seabios: boolean;
  bochs: boolean;
  parameter: boolean;
  last: number;
  write(port: 0x60 | 0x64, byte: number): number;
  read(byte: number): boolean;
}

/** What a command answered: its exit status, and its text. */
export interface Answer {
  readonly exit: number;
  readonly bytes: Uint8Array;
  readonly text: string;
}

/** The whole program over files in memory. */
export declare class Program {
  static load(module: BufferSource | WebAssembly.Module): Promise<Program>;
  run(words: string[], files?: Record<string, Uint8Array | string>): Answer;
}
