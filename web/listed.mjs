// What is told of the symbols that were found: in words, and in files of their list. CSV is for tables; JSON has all
// that is known of them, with heads and marks as dm_sample has them, and can be opened again.
import { textOf } from "./charsets.mjs";
import { limitIn, shapeWords, there } from "./common.mjs";
import { FOUND, PICTURE } from "./csv.mjs";
import { gridText } from "./grids.mjs";
import { typed } from "./gs1.mjs";
import { partOf } from "./contents.mjs";
import { borne, refusal } from "./words.mjs";

/** @typedef {import("./pictures.mjs").Sighted & { seen?: import("./examine.mjs").Seen, picture?: string }} Sighted
    with the name of its picture, where there are several */
/** @typedef {{ symbols: import("./pictures.mjs").Kept[], isComplete: boolean }} List that was saved */
const LEAST_SPARE = "Too few corrections are left unused to tell whether that is right.";

/** @type {(symbol: Sighted) => string} */
export const saidBy = ({ items, marks, head }) => typed({ items, marks, head });
/** @type {(symbol: Sighted) => string} */
export const whyUnread = ({ fault, seen }) => (fault ? refusal(fault, seen) : LEAST_SPARE);
// What a symbol is besides its shape, if it says no whole message.
/** @type {(symbol: Sighted) => string} */
function keptFor({ head }) {
  const part = partOf({ head });
  return part ? `part ${part.part} of ${part.parts}` : head ? "reader programming" : "";
}
/** @type {(parts: (string | undefined)[]) => string} */
const inWords = (parts) => parts.filter(Boolean).join("; ");
/** @type {(symbol: Sighted) => string} */
export const remarksOn = (symbol) => inWords([shapeWords(symbol), keptFor(symbol), symbol.how,
  symbol.isRead ? borne(symbol) : "", symbol.picture]);

// A line for each, for the clipboard; behind a tab it names what says no whole message.
/** @type {(list: Sighted[]) => string} */
export const copiedLines = (list) => list.map((symbol) => [saidBy(symbol), keptFor(symbol)])
  .map(([said, kept]) => `${said}${kept && `\t${kept}`}\n`).join("");

// ---- Files

// CSV as spreadsheets open it: with the mark of UTF-8, CR and LF, and an apostrophe in front of what else would be a
// formula.
const MARK = "\uFEFF", LIVE = /^'*[=+@\t\r-]/;
/** @type {(field: string) => string} */
const deadened = (field) => (LIVE.test(field) ? `'${field}` : field);
/** @type {(field: string) => string} */
const quoted = (field) => (/[",\r\n]/.test(field) ? `"${field.replace(/"/g, '""')}"` : field);
/** @type {(list: Sighted[]) => string} */
export function csvOf(list) {
  const rows = list.map((symbol, k) => [String(k + 1), symbol.isRead ? saidBy(symbol) : "",
    inWords([shapeWords(symbol), keptFor(symbol)]), symbol.isRead ? "" : whyUnread(symbol)]);
  const all = [[...FOUND], ...rows], hasPictures = list.some(({ picture }) => picture);
  if (hasPictures) for (const [k, row] of all.entries()) row.unshift(k ? list[k - 1].picture ?? "" : PICTURE);
  return MARK + all.map((row) => `${row.map(deadened).map(quoted).join(",")}\r\n`).join("");
}
/** @type {(symbol: Sighted) => object} */
const recordOf = (symbol) => {
  const { rows, columns, isRead, items, marks, head, symbology, how, limit, doubtful, picture } = symbol;
  const { corrected, erased, border } = symbol, { charset } = textOf({ items, marks, head });
  const corners = symbol.corners.map(({ x, y }) => [x, y].map((at) => Math.round(10 * at) / 10));
  const shown = { ...(picture ? { picture } : {}), rows, columns, corners, stands: how, borderLimit: limit,
    doubtful: doubtful ? [...doubtful.keys()].filter((k) => doubtful[k]) : [],
    modules: gridText(symbol).trimEnd().split("\n") };
  if (!isRead) return { read: false, why: whyUnread(symbol), ...shown };
  const part = partOf({ head }), ofPart = part && [part.part, part.parts, ...part.file];
  const said = { text: saidBy(symbol), charset, items, head: ofPart ?? head, identifier: symbology,
    marks: marks.map(({ place, number }) => [place, number]) };
  return { read: true, ...said, ...shown, corrected, erased, border };
};
/** @type {(list: Sighted[], isComplete: boolean) => string} */
export const jsonOf = (list, isComplete) =>
  `${JSON.stringify({ complete: isComplete, symbols: list.map(recordOf) }, null, 1)}\n`;

/** @type {(numbers: any[]) => import("./sampler.mjs").Point} */
const pointOf = ([x, y]) => ({ x: Number(x), y: Number(y) });
/** @type {(record: any) => import("./pictures.mjs").Kept} */
function keptOf({ picture, read, stands, corners, borderLimit, doubtful: places, modules: lines }) {
  const text = lines.join(""), columns = lines[0].length;
  const isOdd = (/** @type {string} */ line) => line.length !== columns;
  if (!/^[01]+$/.test(text) || lines.some(isOdd)) throw new Error("no grid");
  const doubtful = places.length ? new Uint8Array(text.length) : null;
  for (const place of places) there(doubtful)[place] = 1;
  return { rows: lines.length, columns, modules: Uint8Array.from(text, Number), doubtful, isRead: read === true,
    limit: limitIn(String(borderLimit)), how: String(stands), corners: corners.map(pointOf),
    ...(picture ? { picture: String(picture) } : {}) };
}
// The list that a file of JSON holds, or null.
/** @type {(bytes: Uint8Array) => List | null} */
export function listIn(bytes) {
  try {
    const { complete, symbols } = JSON.parse(new TextDecoder().decode(bytes));
    return { symbols: symbols.map(keptOf), isComplete: complete === true };
  } catch { return null; }
}
