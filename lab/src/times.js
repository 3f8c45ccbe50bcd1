// The times of the keyboard's machine, in cycles of 2.5 microseconds.
export const CYCLES_OF_A_MS = 400, CYCLES_OF_A_TICK = 2048;
/** The cycle of stamp 0. */
export const FIRST_STAMP = 4096;
