// Reads the tables of this folder, which lab/src/boards/tables.js finds under this name.
import { readFileSync, readdirSync } from 'node:fs';

const read = name => readFileSync(new URL(name, import.meta.url), 'utf8'), ENDING = '.json';

/** The tables by the names of their files; the names of the 84 keys; and the text of `from_kle --help`. */
globalThis.boardTables = {
  ...Object.fromEntries(readdirSync(new URL('.', import.meta.url)).filter(name => name.endsWith(ENDING))
    .map(name => [name.slice(0, -ENDING.length), JSON.parse(read(name))])),
  keys: [...read('../us84.toml').matchAll(/^key = "([^"]+)"/gm)].map(([, name]) => name),
  help: /^#!.*\n((?:#.*\n)*)/.exec(read('../from_kle'))[1].replace(/^# ?/gm, ''),
};
