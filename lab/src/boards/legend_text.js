// The text of legends: pieces that space parts, without HTML; of an icon its name, and the word or sign that it shows.
import { piecesOf } from './refused.js';
import { TABLES, namesByWord, wordsIn } from './tables.js';

const LAST_CHARACTER = 0x10FFFF;
const ENTITIES = new Map(Object.entries(namesByWord(TABLES.entities.names)));

/** A text whose character references are characters; an unknown one stays. */
function unescaped(text) {
  return text.replace(/&(?:#(\d{1,7})|#x([\da-f]{1,6})|([a-z]\w*));?/gi, (reference, decimal, hexadecimal, name) => {
    if (name) return ENTITIES.get(name) ?? reference;
    const code = decimal ? Number(decimal) : Number.parseInt(hexadecimal, 16);
    return code > 0 && code <= LAST_CHARACTER ? String.fromCodePoint(code) : '\uFFFD';
  });
}

const TURNED = /^fa-(rotate|flip)-/, SHOWN_BY_ICONS = namesByWord(TABLES.icons.shows), MODIFIERS = wordsIn(TABLES.icons.modifiers);
const PREFIXES = Object.entries(TABLES.icons.begins);

/** What an icon shows, a word or a sign; null if that isn't known. A turned one may show another thing. */
function shownByIcon(name, isTurned) {
  const plain = name.toLowerCase() + (isTurned ? '-turned' : '');
  for (const form of [plain, plain.replace(/-\d+$/, '')]) {
    if (Object.hasOwn(SHOWN_BY_ICONS, form)) return SHOWN_BY_ICONS[form];
  }
  return (isTurned ? undefined : PREFIXES.find(([begin]) => plain.startsWith(begin))?.[1]) ?? null;
}

/** The piece of an icon or of another picture. */
function iconOf(tag) {
  const [, double, single, bare] = /\bclass\s*=\s*(?:"([^"]*)"|'([^']*)'|([^\s"'>]+))/i.exec(tag) ?? [];
  const classes = wordsIn((double ?? single ?? bare ?? '').replace(/\s+/g, ' '));
  const named = classes.find(it => /^(fa|kb)-/i.test(it) && !MODIFIERS.includes(it.slice(3)) && !TURNED.test(it));
  if (!named) return { text: /^<(i|span)\b/i.test(tag) ? classes.join(' ') || 'i' : 'picture', plain: null, isIcon: true };
  return { text: named.slice(3), plain: shownByIcon(named.slice(3), classes.some(it => TURNED.test(it))), isIcon: true };
}

// A span of a class without a text is an icon; with one it is a style.
const PICTURE = /(<(?:i|img|svg)\b[^<>]*>|<span\b[^<>]*\bclass\b[^<>]*>(?=\s*<\/span\b))/i;
const WORD_STROKE = /(?<=\p{L}{2})\s+\/\s+(?=\p{L}{2})/gu; // between two words

/** The pieces of a legend as it is seen: each as messages have it, and as it is read. */
export function legendPieces(legend) {
  const parts = legend.split(PICTURE);
  return parts.flatMap((part, at) => {
    if (at % 2) return [iconOf(part)];
    return piecesOf(unescaped(part.replace(/<\/?[A-Za-z][^<>]*>/g, ' ')).replace(WORD_STROKE, ' ')).map(text => ({ text, plain: text, isIcon: false }));
  });
}

/** The legends of a key, in a line. */
export const shownLegends = key => key.legends.flatMap(legendPieces).map(piece => piece.text).join(' ');
