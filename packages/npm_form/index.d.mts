import type { Keyboard, Program } from './kbd48.mjs';

export * from './kbd48.mjs';

/** A keyboard that isn't open yet, as `c/kbd48.h` has it. */
export declare function loadKeyboard(): Promise<Keyboard>;

/** The whole program: each command, over files in memory. */
export declare function loadProgram(): Promise<Program>;
