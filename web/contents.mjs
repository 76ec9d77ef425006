// Contents: what symbols say. Items are 0 to 255, and 256 for FNC1; marks are ECI assignments, which say how the items
// behind them are meant; a head says that a symbol is one part of what several say, or that it programs the reader.
import { crcOf } from "./zip.mjs";

/** @typedef {{ place: number, number: number }} Mark the number of an ECI assignment, behind so many items */
/** @typedef {{ part: number, parts: number, file: number[] }} Part of so many, 2 to 16, with the two numbers that all
    of them have, 1 to 254: structured append */
/** @typedef {"programming" | Part} Head */
/** @typedef {{ items: number[], marks: Mark[], head: Head | null }} Content */
/** @type {"programming"} */
export const PROGRAMMING = "programming"; // the head of what programs the reader
export const ECI_UTF_8 = 26;
const MOST_OF_FILE = 254;

const PART_KIND = 1, PROGRAMMING_KIND = 2; // of heads, in the library's interface: none is 0
/** @type {(kind: number, part: number, parts: number, file: number[]) => Head | null} */
export const headOf = (kind, part, parts, file) =>
  (kind === PART_KIND ? { part, parts, file } : kind === PROGRAMMING_KIND ? PROGRAMMING : null);
/** @type {(head: Head | null) => number} */
export const kindOfHead = (head) => (head === null ? 0 : head === PROGRAMMING ? PROGRAMMING_KIND : PART_KIND);
/** @type {(items: number[], marks?: Mark[], head?: Head | null) => Content} */
export const contentOf = (items, marks = [], head = null) => ({ items, marks, head });
// Which part of what a content is, or null if it is none.
/** @type {(content: { head?: Head | null }) => Part | null} */
export const partOf = ({ head }) => (head && head !== PROGRAMMING ? head : null);
// A name for each file: the same for all of its parts.
/** @type {(part: Part) => string} */
export const nameOfFile = ({ parts, file }) => [parts, ...file].join(" ");
// A text for each content: the same for the same.
/** @type {(content: Content) => string} */
export const keyOfContent = ({ items, marks, head }) =>
  JSON.stringify([items, marks.map(({ place, number }) => [place, number]), head]);
/** @type {(one: Content, other: Content) => boolean} */
export const isSameContent = (one, other) => keyOfContent(one) === keyOfContent(other);

// ---- Parts

// The two numbers of the file that a content makes when it is taken apart: the same for the same content.
/** @type {(content: Content) => number[]} */
function fileOf(content) {
  const crc = crcOf(new TextEncoder().encode(keyOfContent(content)));
  return [crc % MOST_OF_FILE, Math.floor(crc / MOST_OF_FILE) % MOST_OF_FILE].map((number) => number + 1);
}
// The number that is in force behind so many items, or undefined.
/** @type {(marks: Mark[], at: number) => number | undefined} */
const eciAt = (marks, at) => marks.filter(({ place }) => place <= at).pop()?.number;
// The items of a content from one place to another, with their marks, of which the one in force stands first.
/** @type {(content: Content, from: number, to: number, isLast: boolean) => Content} */
function pieceOf({ items, marks }, from, to, isLast) {
  const number = eciAt(marks, from), first = number === undefined ? [] : [{ place: 0, number }];
  const own = marks.filter(({ place }) => place > from && (place < to || (isLast && place === to)));
  return contentOf(items.slice(from, to), [...first, ...own.map((mark) => ({ ...mark, place: mark.place - from }))]);
}
// The assignments of charsets whose characters take one byte or two, of which the first is greater than 128.
const SHIFT_JIS = 20, OF_TWO_BYTES = [SHIFT_JIS, 28, 29, 30, 31];
/** @type {(byte: number, number: number) => boolean} */
const beginsTwo = (byte, number) => byte > 0x80 && !(number === SHIFT_JIS && byte >= 0xa0 && byte < 0xe0);
// Whether a character goes on at a place, in UTF-8 or in one of these charsets.
/** @type {(content: Content, at: number) => boolean} */
function isWithin({ items, marks }, at) {
  const { number, place } = marks.filter((mark) => mark.place <= at).pop() ?? { number: 0, place: 0 };
  if (!OF_TWO_BYTES.includes(number)) return number === ECI_UTF_8 && (items[at] & 0xc0) === 0x80;
  let begin = place;
  while (begin < at) begin += beginsTwo(items[begin], number) ? 2 : 1;
  return begin > at;
}
// A content in so many parts of about equal length.
/** @type {(content: Content, parts: number) => Content[]} */
export function takenApart(content, parts) {
  if (parts === 1) return [content];
  const { items } = content, file = fileOf(content), ends = [0];
  for (let part = 1; part <= parts; part++) {
    let end = Math.max(ends[part - 1], Math.round((items.length * part) / parts));
    while (isWithin(content, end)) end++;
    ends.push(end);
  }
  return ends.slice(1).map((end, k) => ({
    ...pieceOf(content, ends[k], end, k + 1 === parts), head: { part: k + 1, parts, file } }));
}
// What contents say together that are parts, in this order. A mark in front of one that says what is in force already
// is left out.
/** @type {(contents: Content[]) => Content} */
export function together(contents) {
  const whole = contentOf([]);
  for (const { items, marks } of contents) {
    for (const { place, number } of marks)
      if (eciAt(whole.marks, whole.items.length) !== number || place > 0)
        whole.marks.push({ place: place + whole.items.length, number });
    whole.items.push(...items);
  }
  return whole;
}
