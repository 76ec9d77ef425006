// Labels of stock sizes, of which sheets of A4 have rows and columns; where each symbol stands on them.
import { captionOf } from "./captions.mjs";
import { there } from "./common.mjs";
import { field, lengthIn, numberIn } from "./dom.mjs";
import { paperNow, tooWide } from "./paper.mjs";
import { QUIET, withQuiet } from "./symbol.mjs";

/** @typedef {{ page: [number, number], columns: number, rows: number, width: number, height: number,
    across: number }} Stock in millimetres: of a page, of a label, and from one label to the next */
const A4 = [210, 297];
/** @type {(columns: number, rows: number, width: number, height: number, across?: number) => Stock} */
const sheet = (columns, rows, width, height, across = width) =>
  ({ page: [A4[0], A4[1]], columns, rows, width, height, across });
/** @type {(width: number, height: number) => Stock} */
const roll = (width, height) => ({ page: [width, height], columns: 1, rows: 1, width, height, across: width });
/** @type {Record<string, Stock>} by the names of index.html */
const STOCK = {
  "a4-2x4": sheet(2, 4, 99.1, 67.7, 101.6), "a4-2x7": sheet(2, 7, 99.1, 38.1, 101.6),
  "a4-3x7": sheet(3, 7, 63.5, 38.1, 66.04), "a4-3x8": sheet(3, 8, 70, 37), "a4-5x13": sheet(5, 13, 38.1, 21.2, 40.6),
  "25x25": roll(25, 25), "38x25": roll(38, 25), "50x30": roll(50, 30), "100x50": roll(100, 50),
};
const LEAST_LABEL = 5, MOST_LABEL = 300; // millimetres of a label's own width or height
/** @type {(id: string) => number | null} */
const ownLength = (id) => lengthIn(id, LEAST_LABEL, MOST_LABEL);
// The labels that are chosen; { why } if their size is none; null for none at all.
/** @type {() => Stock | { why: string } | null} */
export function stockNow() {
  const name = field("stock").value;
  if (name !== "own") return STOCK[name] ?? null;
  const width = ownLength("label-width"), height = ownLength("label-height");
  if (width && height) return roll(width, height);
  return { why: `A label has ${LEAST_LABEL} to ${MOST_LABEL} mm on each side.` };
}
// ---- Where symbols stand, with their texts below them, page by page; or why one has no room

/** @typedef {import("./entries.mjs").Entry} Entry */
/** @typedef {import("./pdf.mjs").Page} Page */
/** @typedef {{ why?: string, pages?: Page[] }} Pages */
const TEXT_MARGIN = 1; // millimetres at each side of a label that a text leaves free
const REMEDY = "Take narrower modules or larger labels.";
/** @type {(grid: import("./common.mjs").Grid, module: number) => { width: number, height: number }} */
const sizeOf = (grid, module) => {
  const { rows, columns } = withQuiet(grid);
  return { width: columns * module, height: rows * module };
};
/** @type {(number: number, why: string) => string} */
const NO_ROOM = (number, why) => `Message ${number}: ${why}. Take a shorter text, larger labels, or no text below.`;
const LEAST_WIDTH = 20; // millimetres for a text, however narrow the symbol above it is
// A symbol in the middle of its text, as large as both: a page of its own, or a cell among others.
/** @type {(entry: Pick<Entry, "grid" | "text" | "number">, module: number, most?: number) =>
    { why?: string, page?: Page }} */
export function pageOf({ grid, text, number }, module, most = Infinity) {
  const own = sizeOf(there(grid), module), more = (quietNow() - QUIET) * module;
  const [across, down] = [own.width, own.height].map((length) => length + 2 * more);
  const width = Math.max(across, text ? LEAST_WIDTH : 0), { caption, why } = captionOf(text, width, most - down);
  if (!caption) return { why: NO_ROOM(number, why ?? "") };
  const placed = [{ grid: there(grid), x: (width - own.width) / 2, y: more, module, caption, width, below: more }];
  return { page: { width, height: down + caption.height, placed } };
}
// How many modules of quiet zone there are around a symbol that is as large as its label.
export const quietNow = () => numberIn("quiet", 0, MOST_QUIET) ?? QUIET;
const MOST_QUIET = 20;
// On labels, in the middle of each.
/** @type {(entries: Entry[], stock: Stock, module: number) => Pages} */
export function laidOut(entries, { page: [width, height], columns, rows, ...label }, module) {
  const left = (width - (columns - 1) * label.across - label.width) / 2, top = (height - rows * label.height) / 2;
  /** @type {Page[]} */
  const pages = [], room = label.width - 2 * TEXT_MARGIN;
  for (const [k, { grid, text, number }] of entries.entries()) {
    const own = sizeOf(there(grid), module), whole = captionOf(text, room), free = label.height - own.height;
    if (!whole.caption) return { why: NO_ROOM(number, whole.why ?? "") };
    const { caption } = captionOf(text, room, free);
    if (own.width > label.width || !caption || free < 0) {
      const words = text ? ` and ${rounded(whole.caption.height)} mm of text` : "";
      return { why: `Message ${number} takes ${rounded(own.width)} × ${rounded(own.height)} mm${words}, and a label is `
        + `${label.width} × ${label.height} mm. ${REMEDY}` };
    }
    const at = k % (columns * rows), column = at % columns, row = Math.floor(at / columns);
    if (!at) pages.push({ width, height, placed: [] });
    const x = left + column * label.across + (label.width - own.width) / 2;
    const y = top + row * label.height + (free - caption.height) / 2;
    pages[pages.length - 1].placed.push({ grid: there(grid), x, y, module, caption, width: room, below: 0 });
  }
  return { pages };
}
/** @type {(length: number) => string} */
const rounded = (length) => String(+length.toFixed(2));
const GAP = 6; // millimetres between symbols that follow one another
// One after another on sheets of paper.
/** @type {(entries: Entry[], paper: import("./paper.mjs").Paper, module: number) => Pages} */
export function flowed(entries, { width, height, across, down, margin }, module) {
  /** @type {Page[]} */
  const pages = [];
  let x = Infinity, y = Infinity, high = 0; // where the next one stands, from the margins, and how high its line is
  for (const entry of entries) {
    const own = sizeOf(there(entry.grid), module).width, whyWide = tooWide(own);
    if (whyWide) return { why: `Message ${entry.number} makes a symbol that is ${rounded(own)} mm wide: ${whyWide}` };
    const { page: cell, why } = pageOf(entry, module, down);
    if (!cell) return { why };
    if (x + cell.width > across) [x, y, high] = [0, y + high + GAP, 0];
    high = Math.max(high, cell.height);
    if (y + high > down) {
      [x, y, high] = [0, 0, cell.height];
      pages.push({ width, height, placed: [] });
    }
    const [placed] = cell.placed;
    pages[pages.length - 1].placed.push({ ...placed, x: margin + x + placed.x, y: margin + y });
    x += cell.width + GAP;
  }
  return { pages };
}
// Each entry on a label of its own: the one that is chosen, or one as large as the symbol with its text.
/** @type {(entry: Entry, module: number) => { why?: string, page?: Page }} */
export function labelOf(entry, module) {
  const stock = stockNow();
  if (!stock) return pageOf(entry, module);
  if ("why" in stock) return stock;
  const { why, pages } = laidOut([entry], roll(stock.width, stock.height), module);
  return why ? { why } : { page: pages?.[0] };
}
// All pages as they are chosen.
/** @type {(entries: Entry[], module: number) => Pages} */
export function pagesOf(entries, module) {
  const stock = stockNow(), paper = paperNow();
  if (stock) return "why" in stock ? stock : laidOut(entries, stock, module);
  if (paper) return flowed(entries, paper, module);
  const own = entries.map((entry) => pageOf(entry, module)), bad = own.find(({ why }) => why);
  return bad ? { why: bad.why } : { pages: own.map(({ page }) => there(page)) };
}
