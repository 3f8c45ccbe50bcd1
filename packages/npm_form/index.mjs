// The proved keyboard and the proved program of kbd48, with the modules that this package has.
import { readFile } from 'node:fs/promises';
import { Keyboard, Program } from './kbd48.mjs';

export * from './kbd48.mjs';

const moduleOf = name => readFile(new URL(`${name}.wasm`, import.meta.url));

/** A keyboard that isn't open yet, as `c/kbd48.h` has it. */
export const loadKeyboard = async () => Keyboard.load(await moduleOf('keyboard'));

/** The whole program: each command, over files in memory. */
export const loadProgram = async () => Program.load(await moduleOf('program'));
