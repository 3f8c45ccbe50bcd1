// What QMK's key codes, which are VIA's too, mean on a keyboard whose keys each send one code, with one Fn key. A meaning
// has a `kind`: sends, momentary (it selects a layer while it is held), nothing, below (what the layer below sends), unsaid.
import { COUNTRIES } from './countries.js';
import { charactersOf } from './refused.js';
import { TABLES, namesByWord, wordsIn } from './tables.js';

const STAR = "the keypad's * key, which types * without Shift, and prints the screen with it";
const NUM_OFF_CODE = "the keypad's key, which means this while Num Lock is off";
const CHORD = 'since one key sends one code, not several together', STRANGE = 'since it is none of the 84 keys';
const { modifiers, together } = TABLES.key_codes;
const [chords, shifted, switches, iso] = ['chords', 'shifted', 'switches', 'iso'].map(name => wordsIn(TABLES.key_codes[name]));
// What each code without KC_ sends: the key, and what is told of it.
const codes = new Map([
  ...charactersOf('ABCDEFGHIJKLMNOPQRSTUVWXYZ0123456789').map(character => [character, [character.toLowerCase(), '']]),
  ...Array.from({ length: 10 }, (_, at) => [`F${at + 1}`, [`f${at + 1}`, '']]),
  ...charactersOf('0123456789').flatMap(digit => ['P', 'KP_'].map(before => [before + digit, [`kp${digit}`, '']])),
  ...Object.entries(namesByWord(TABLES.key_codes.plain)).map(([code, key]) => [code, [key, '']]),
  ...['PSCR', 'PRINT_SCREEN', 'PSCREEN'].map(code => [code, ['prtsc', STAR]]),
  ...Object.entries(namesByWord(TABLES.key_codes.moves)).map(([code, key]) => [code, [key, NUM_OFF_CODE]]),
]);
// Codes that do one thing held and another tapped, or with a shift key: the key that is kept, and what is lost.
const kept = new Map(Object.entries(TABLES.key_codes.kept).flatMap(([all, says]) => wordsIn(all).map(code => [code, says])));
const sends = (key, lost = '') => ({ kind: 'sends', key, lost });
const unsaid = why => ({ kind: 'unsaid', why });
const momentary = (layer, lost, tap = null) => ({ kind: 'momentary', layer, lost, tap });

/** A code's name and what is in its parentheses, parted at the commas that no further parentheses enclose. */
function callOf(code) {
  // Vial has the layer before the parentheses.
  const found = /^\s*([\p{L}\p{N}_]+)\s*(?:\((.*)\))?\s*$/u.exec(code.replace(/^\s*LT(\d+)\(/, 'LT($1,'));
  if (!found) return { name: '', words: [] };
  const parts = [''];
  let depth = 0;
  for (const character of found[2] ?? '') {
    depth += (character === '(') - (character === ')');
    if (character === ',' && depth === 0) parts.push('');
    else parts[parts.length - 1] += character;
  }
  return { name: found[1], words: found[2] === undefined ? [] : parts.map(part => part.trim()) };
}

function plainMeaning(code) {
  if (['KC_NO', 'XXXXXXX'].includes(code)) return { kind: 'nothing' };
  if (['KC_TRNS', 'KC_TRANSPARENT', '_______'].includes(code)) return { kind: 'below' };
  if (kept.has(code)) return sends(...kept.get(code));
  if (/^SPC_FN\d$/.test(code)) return momentary(Number(code.at(-1)), 'its tap is lost', sends('space'));
  if (Object.hasOwn(together, code)) return momentary(together[code], 'the layer of both Fn keys together is lost');
  const word = code.startsWith('KC_') ? code.slice(3) : '';
  if (shifted.includes(word)) return unsaid(CHORD);
  if (iso.includes(word)) return unsaid('since the key between Shift and Z is none of the 84');
  return codes.has(word) ? sends(...codes.get(word)) : ofCountry(code) ?? unsaid(STRANGE);
}

/** The country of a code of QMK's files of countries, or undefined. */
export function countryOfCode(code) {
  const [, prefix] = /\b([A-Z]{2})_\w+/.exec(code) ?? [], name = TABLES.country_codes.prefixes[prefix];
  return COUNTRIES.find(country => country.name === name);
}

/** What a code of a country means, or null if it is none. */
function ofCountry(code) {
  const country = countryOfCode(code), name = code.slice(3), { characters } = TABLES.country_codes;
  if (!country) return null;
  const named = name.length === 1 ? name : Object.hasOwn(characters, name) ? characters[name] : '';
  for (const character of named) {
    const key = country.types(character);
    if (key !== null) return key ? sends(key) : unsaid(STRANGE);
    if (country.shifts(character)) return unsaid(CHORD);
  }
  return null;
}

/** What a code does when it is tapped, if that is all that a key can keep of it. */
function tapped(code, lost) {
  const tap = meaningOf(code);
  if (tap.kind === 'nothing') return unsaid(`since it does nothing when it is tapped; ${lost}`);
  return tap.kind === 'sends' ? sends(tap.key, [tap.lost, lost].filter(Boolean).join('; ')) : tap;
}

/** What a code means that selects a layer while its key is held, or null if it isn't one. */
function heldLayer(name, words) {
  if (!['MO', 'LT', 'TT', 'OSL'].includes(name) || !/^\d+$/.test(words[0]) || words.length !== (name === 'LT' ? 2 : 1)) return null;
  const layer = Number(words[0]);
  // A key that selects layer 0 while it is held only has its tap.
  if (layer === 0) return name === 'LT' ? tapped(words[1], 'what it does when it is held is lost') : unsaid('since it selects layer 0');
  if (name !== 'LT') return momentary(layer, name === 'MO' ? '' : 'what it does when it is tapped is lost');
  const tap = meaningOf(words[1]);
  return momentary(layer, 'its tap is lost', tap.kind === 'sends' ? tap : null);
}

/** What a code means. */
export function meaningOf(code) {
  const { name, words } = callOf(code);
  if (!words.length) return plainMeaning(name);
  if (name === 'ANY' && words.length === 1) return meaningOf(words[0]);
  if (chords.includes(name)) return unsaid(CHORD);
  if (name === 'TD') return unsaid("since a tap dance is a program of the keyboard's own, and the keymap doesn't have it");
  if (name === 'MT' && words.length === 2) return tapped(words[1], 'its modifier when it is held is lost');
  if (name.endsWith('_T') && words.length === 1) return tapped(words[0], 'its modifier when it is held is lost');
  if (name === 'OSM' && words[0].startsWith('MOD_') && Object.hasOwn(modifiers, words[0].slice(4))) {
    return sends(modifiers[words[0].slice(4)], 'what it does when it is tapped is lost');
  }
  if (name === 'OSM') return unsaid(CHORD);
  if (switches.includes(name)) return unsaid('since a layer is selected while a key is held, and in no other way');
  return heldLayer(name, words) ?? unsaid(STRANGE);
}
