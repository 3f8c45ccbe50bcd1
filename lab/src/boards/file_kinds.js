// What a file is, whatever its name and whatever reads it.
import { Refused } from './refused.js';
import { TABLES } from './tables.js';

const { bytes: BY_BYTES, wide: WIDE_TEXT, texts: BY_TEXTS } = TABLES.kinds;
const WIDE_FROM = 4, WIDE_TO = 64; // bytes that show that a text is UTF-16
const READ_HERE = ['json', 'keymap'];
const KIND_FORMS = BY_TEXTS.map(entry => ({ ...entry, form: new RegExp(entry.form, 'mi') }));
const said = ({ is, takes, do: what }, name) => `it is ${is}; ${takes ? `\`${takes.replace('FILE', name)}\` takes it` : what}`;

/** Whether a text is UTF-16 without a mark: every other one of its first bytes is zero, and the others aren't. */
function isWide(bytes) {
  const begin = [...bytes.slice(0, Math.min(WIDE_TO, bytes.length - bytes.length % 2))];
  const fits = zeroAt => begin.every((byte, at) => (at % 2 === zeroAt) === (byte === 0));
  return begin.length >= WIDE_FROM && (fits(0) || fits(1));
}

/** What a file's first bytes say of it, in words; or null. */
export function kindOfFile(bytes, name) {
  const begin = Array.from(bytes.slice(0, 4), byte => byte.toString(16).padStart(2, '0').toUpperCase()).join('');
  const found = BY_BYTES.find(entry => begin.startsWith(entry.begins)) ?? (isWide(bytes) ? WIDE_TEXT : null);
  return found ? said(found, name) : null;
}

/** What a text's lines say of it, in words; or null. JSON is what is read here. */
export function kindOfText(text, name) {
  const found = KIND_FORMS.find(({ form }) => form.test(text));
  return found && !READ_HERE.includes(found.kind) ? said(found, name) : null;
}

/** The text of a file's bytes, without a byte order mark. */
export function textOfBytes(bytes, name) {
  const found = kindOfFile(bytes, name);
  if (found) throw new Refused(found);
  try {
    return new TextDecoder('utf-8', { fatal: true }).decode(bytes);
  } catch {
    throw new Refused('it is no UTF-8 text');
  }
}
