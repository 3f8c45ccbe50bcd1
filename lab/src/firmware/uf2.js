// UF2 files for the RP2040, of its flash memory from the beginning (firmware/uf2.py).

const BLOCK = 512, PAYLOAD = 256, SECTOR = 4096, FLASH = 0x10000000; // bytes, bytes, bytes, an address
const HEAD = [0x0A324655, 0x9E5D5157, 0x2000], FAMILY = 0xE48BFF56, TAIL = 0x0AB16F30;

/** The UF2 of a flash memory. Whole sectors are given, because the ROM erases a sector with its first page alone. */
export function uf2Of(flash) {
  const pages = Math.ceil(flash.length / SECTOR) * SECTOR / PAYLOAD, file = new Uint8Array(pages * BLOCK);
  for (let page = 0; page < pages; page++) {
    const at = page * PAYLOAD, block = file.subarray(page * BLOCK, (page + 1) * BLOCK), words = new DataView(block.buffer, block.byteOffset);
    const head = [...HEAD, FLASH + at, PAYLOAD, page, pages, FAMILY];
    head.forEach((word, n) => words.setUint32(4 * n, word, true));
    block.set(flash.subarray(at, at + PAYLOAD), 4 * head.length);
    words.setUint32(BLOCK - 4, TAIL, true);
  }
  return file;
}
