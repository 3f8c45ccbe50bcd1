// Links: files, the lesson, the file that is open and the command, packed into the part of the address after `#`, which no server
// sees.
import { make, tell } from './dom.js';
import { isFileName } from './keeping.js';

const KEY = '#lab=', OLD_KEY = '#files=';
const MOST_PACKED = 1 << 20, MOST_UNPACKED = 4 << 20; // letters of an address, bytes

// Read by hand: a Response that can't be read makes Firefox report an error on the console, though it is caught. What is longer
// than `most` isn't unpacked to its end.
async function through(bytes, transform, most = Infinity) {
  const reader = new Blob([bytes]).stream().pipeThrough(transform).getReader(), parts = [];
  let many = 0;
  for (let part = await reader.read(); !part.done; part = await reader.read()) {
    parts.push(part.value);
    many += part.value.length;
    if (many > most) {
      reader.cancel().catch(() => {});
      throw new RangeError(`it has more than ${most} bytes`);
    }
  }
  return new Uint8Array(await new Blob(parts).arrayBuffer());
}

export const unpacked = bytes => through(bytes, new DecompressionStream('gzip'));

const base64Of = bytes => btoa(Array.from(bytes, byte => String.fromCharCode(byte)).join(''));

export const bytesOf = base64 => Uint8Array.from(atob(base64), letter => letter.charCodeAt(0));

// The address of this page with { files, open, command, lesson }; one that `sharedIn` would refuse isn't made.
async function linkOf(shared) {
  const bytes = new TextEncoder().encode(JSON.stringify(shared));
  if (bytes.length > MOST_UNPACKED) throw new RangeError(`they have ${bytes.length} bytes, and a link carries at most ${MOST_UNPACKED}`);
  const packed = await through(bytes, new CompressionStream('gzip'));
  const hash = KEY + base64Of(packed).replaceAll('+', '-').replaceAll('/', '_').replaceAll('=', '');
  if (hash.length > MOST_PACKED) throw new RangeError(`packed they have ${hash.length} letters, and a link has at most ${MOST_PACKED}`);
  return location.href.split('#')[0] + hash;
}

/** Lets the address of the page carry this, as `linkOf` has it, and says so with the link in `told`; or says why there is no link. */
export async function offerLink(told, shared) {
  const names = Object.keys(shared.files).join(', ');
  let link;
  try {
    link = await linkOf(shared);
  } catch (error) {
    if (!(error instanceof RangeError)) throw error;
    tell(told, `No link carries ${names}: ${error.message}. Save all in the workbench saves them as one file.`, false);
    return;
  }
  history.replaceState(null, '', link);
  tell(told, `The address of this page now carries ${names}. `);
  told.append(make('a', { href: link, textContent: 'The link' }));
  if (location.protocol === 'file:') told.append('. This page is a file of this computer, so the link works here alone. For others, put the page on a web server, or send them what Save all saves.');
}

// One step of reading a link; what fails is said as this.
async function orSay(words, act) {
  try {
    return await act();
  } catch (error) {
    throw new Error(`the link is broken: ${error instanceof RangeError ? error.message : words}`);
  }
}

/** What an address carries, or null if that is nothing of the page's. What is wrong with it is an error. */
export async function sharedIn(hash) {
  const key = [KEY, OLD_KEY].find(it => hash.startsWith(it));
  if (!key) return null;
  if (hash.length > MOST_PACKED) throw new Error(`the link is broken: it has more than ${MOST_PACKED} letters`);
  const packed = await orSay('its letters are none that this page makes', () => bytesOf(hash.slice(key.length).replaceAll('-', '+').replaceAll('_', '/')));
  const bytes = await orSay('a part of it is missing or changed', () => through(packed, new DecompressionStream('gzip'), MOST_UNPACKED));
  const said = await orSay('what it carries is no text of this page', () => JSON.parse(new TextDecoder().decode(bytes)));
  const shared = key === KEY ? said : { files: said };
  const entries = Object.entries(shared?.files ?? {}), wrong = entries.find(([name, text]) => !isFileName(name) || typeof text !== 'string');
  if (wrong) throw new Error(`the link is broken: ${wrong[0].slice(0, 40)} is no file`);
  if (!entries.length) throw new Error('the link is broken: no file could be read from it');
  const isText = value => typeof value === 'string';
  return {
    files: Object.fromEntries(entries), open: isText(shared.open) && shared.open in shared.files ? shared.open : entries[0][0],
    command: isText(shared.command) ? shared.command : null, lesson: Number.isInteger(shared.lesson) ? shared.lesson : null,
  };
}
