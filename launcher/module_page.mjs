// The module in lab/lab.html, found by searching bytes: the page is long, and each call of the launcher reads it.
import { createHash } from 'node:crypto';
import { readFileSync } from 'node:fs';
import { gunzipSync } from 'node:zlib';

/** The page can't be used, for the reason that the message says. */
export class PageFault extends Error {}

// What is between two texts of the page.
function between(page, begin, end, what) {
  const at = page.indexOf(begin), from = at + begin.length, to = page.indexOf(end, from);
  if (at < 0 || to < 0) throw new PageFault(`has no ${what}`);
  return page.toString('latin1', from, to);
}

function unpacked(text) {
  try {
    return gunzipSync(Buffer.from(text, 'base64'));
  } catch {
    return Buffer.alloc(0);
  }
}

/** The bytes of the whole program's module in the page of this path. Its checksum must be the one that the page's head names. */
export function programOf(path) {
  let page;
  try {
    page = readFileSync(path);
  } catch (error) {
    throw new PageFault(`can't be read: ${error.code}`);
  }
  const named = between(page, '<meta name="kbd48-program-module" content="', '">', 'checksum of its program');
  const bytes = unpacked(between(page, ' id="program-module">', '<', 'program'));
  if (createHash('sha256').update(bytes).digest('hex') !== named) {
    throw new PageFault('has a module that was changed: its checksum is another than the page says');
  }
  return bytes;
}
