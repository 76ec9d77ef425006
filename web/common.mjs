// What both the page and its worker know: numbers of the library's interface, and small helpers.

export const ABI = 1, FNC1 = 256, BEYOND = 255;
export const MOST_ROWS = 144, MOST_COLUMNS = 144, MOST_ITEMS = 3123, MOST_MARKS = 779;
export const SIZE_COUNT = 48;
export const WIDE = 0, GIVEN_LIMIT = 3, ASCII = 0, SHORTER = 1, SMALLEST = 2;
// The sizes of which a symbol that is written may have the smallest, or the one that it is to have.
export const SQUARE = 0, RECTANGLE = 1, EXTENDED = 2, ANY = 3, ONE = 4;
export const BORDER_FAULT = 5, BLOCK_FAULT = 6, TOO_LONG = 14;
export const BIT = 1, BORDER_LIGHT = 2, BORDER_DARK = 3;
// Characters and lines of a message, or of a grid: the longest of either has fewer.
export const MOST_TEXT = 25000, MOST_LINES = 1000;
export const MOST_OF_SHEET = 2000000, MOST_LINES_OF_SHEET = 10000; // of the messages of a sheet

export const MOST_LIMIT = 65535; // of wrong border modules
/** @type {"auto"} */
export const AUTO = "auto"; // the limit by which any border is taken where each block keeps a correction unused
/** @typedef {number | "auto" | null} Limit of wrong border modules: null is the usual one */
// A limit that is entered or linked, or null if it is none.
/** @type {(text: string) => Limit} */
export function limitIn(text) {
  if (text.trim() === AUTO) return AUTO;
  const value = text.trim() ? Number(text) : NaN;
  return Number.isInteger(value) && value >= 0 && value <= MOST_LIMIT ? value : null;
}

/** @type {(count: number, one: string, many: string) => string} */
export const plural = (count, one, many) => `${count.toLocaleString("en")} ${count === 1 ? one : many}`;
/** @typedef {{ rows: number, columns: number }} Shape of a symbol, in modules */
/** @typedef {Shape & { modules: Uint8Array }} Grid its modules row by row: 1 is dark */
/** @type {(shape: Shape) => string} */
export const shapeWords = ({ rows, columns }) => `${rows} × ${columns}`;
// In names of files and in links: of a square its side.
/** @type {(shape: Shape) => string} */
export const shapeName = ({ rows, columns }) => (rows === columns ? String(rows) : `${rows}x${columns}`);
/** @type {(a: Shape, b: Shape) => boolean} */
export const isSameShape = (a, b) => a.rows === b.rows && a.columns === b.columns;
// The block of a codeword, counted from 0. By the other dealing of 144 x 144 check codewords are dealt anew.
/** @type {(size: { data: number, blocks: number }, dealing: number, word: number) => number} */
export const blockOf = ({ data, blocks }, dealing, word) => (dealing && word >= data ? word - data : word) % blocks;
// What has to be there by now.
/** @type {<T>(value: T | null | undefined) => T} */
export function there(value) {
  if (value === null || value === undefined) throw new TypeError("something that has to be there isn’t");
  return value;
}
// The number of a letter that isn't empty.
/** @type {(letter: string) => number} */
export const codeOf = (letter) => there(letter.codePointAt(0));
// What something that was thrown says.
/** @type {(why: unknown) => string} */
export const messageOf = (why) => (why instanceof Error ? why.message : String(why));
/** @type {(a: ArrayLike<number>, b: ArrayLike<number>) => boolean} */
export function isSame(a, b) {
  let at = 0;
  while (at < a.length && a[at] === b[at]) at++;
  return a.length === b.length && at === a.length;
}
