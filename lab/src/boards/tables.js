// The tables of examples/kle: what codes and legends mean. The page has them in an element; examples/kle/from_kle.mjs reads the
// files, and keeps them under this name before it loads the rules.
export const TABLES = globalThis.boardTables ?? JSON.parse(document.getElementById('boards').textContent);

/** The pieces of a text of a table. */
export const wordsIn = text => text.split(' ').filter(Boolean);

/** For each word of the texts of a table its name there. */
export const namesByWord = table => Object.fromEntries(Object.entries(table).flatMap(([name, text]) => wordsIn(text).map(word => [word, name])));
