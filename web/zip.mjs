// Checksums, and many files in one: a ZIP archive in which they stand as they are.

/** @type {(bytes: Uint8Array) => number} */
export function crcOf(bytes) {
  let crc = -1;
  for (const byte of bytes) {
    crc ^= byte;
    for (let bit = 0; bit < 8; bit++) crc = (crc >>> 1) ^ (crc & 1 ? 0xedb88320 : 0);
  }
  return ~crc >>> 0;
}
const LOCAL = 0x04034b50, CENTRAL = 0x02014b50, END = 0x06054b50, NEEDED = 20, UTF8 = 0x800;
const HEAD = 30; // bytes in front of the name of a file
const DATE = (46 << 9) | (1 << 5) | 1; // 1 January 2026: files that are made twice are the same

// Numbers of two or four bytes, the lowest first: each as [size, number].
/** @type {(...numbers: [number, number][]) => Uint8Array} */
function record(...numbers) {
  const bytes = new Uint8Array(numbers.reduce((sum, [size]) => sum + size, 0)), view = new DataView(bytes.buffer);
  let at = 0;
  for (const [size, number] of numbers) {
    if (size === 2) view.setUint16(at, number, true); else view.setUint32(at, number, true);
    at += size;
  }
  return bytes;
}
// The files that stand in such an archive.
/** @type {(all: Uint8Array) => { name: string, bytes: Uint8Array }[]} */
export function filesIn(all) {
  const view = new DataView(all.buffer, all.byteOffset, all.length), files = [];
  for (let at = 0; at + HEAD <= all.length && view.getUint32(at, true) === LOCAL;) {
    const size = view.getUint32(at + 18, true), from = at + HEAD + view.getUint16(at + 26, true);
    const begin = from + view.getUint16(at + 28, true);
    const name = new TextDecoder().decode(all.subarray(at + HEAD, from));
    files.push({ name, bytes: all.subarray(begin, begin + size) });
    at = begin + size;
  }
  return files;
}
/** @type {(files: { name: string, bytes: Uint8Array }[]) => Blob} */
export function zipOf(files) {
  const parts = [], central = [];
  let at = 0;
  for (const { name, bytes } of files) {
    const called = new TextEncoder().encode(name), size = bytes.length;
    /** @type {[number, number][]} */
    const about = [[2, NEEDED], [2, UTF8], [2, 0], [2, 0], [2, DATE], [4, crcOf(bytes)], [4, size], [4, size],
      [2, called.length], [2, 0]];
    const head = record([4, LOCAL], ...about);
    parts.push(head, called, bytes);
    central.push(record([4, CENTRAL], [2, NEEDED], ...about, [2, 0], [2, 0], [2, 0], [4, 0], [4, at]), called);
    at += head.length + called.length + size;
  }
  const length = central.reduce((sum, part) => sum + part.length, 0), count = files.length;
  const end = record([4, END], [2, 0], [2, 0], [2, count], [2, count], [4, length], [4, at], [2, 0]);
  return new Blob([...parts, ...central, end], { type: "application/zip" });
}
