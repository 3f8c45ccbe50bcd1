// Files of the user's system as texts.
import { textOfBytes } from './boards/file_kinds.js';

const LARGEST = 4 << 20; // bytes

/** A file's text under a name that any command can say; or why it isn't taken. */
export async function textOfFile(file) {
  const name = file.name.replace(/[^\w.-]/g, '_');
  if (file.size > LARGEST) throw new Error(`${name} is longer than any file that the program reads`);
  const bytes = new Uint8Array(await file.arrayBuffer());
  try {
    return { name, text: textOfBytes(bytes, name) };
  } catch (fault) {
    throw new Error(`${name}: ${fault.message}`);
  }
}
