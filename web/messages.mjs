// How contents are spelled: \\ is the backslash, \F FNC1, \xHH a byte, \E{N} the ECI assignment N, and any other
// character of 32 to 126 itself; in front of them \A{2/5:001002} a part of what several symbols say, with the numbers
// of its file, and \P reader programming. The values of element strings have no ECI and no head, but \( a bracket.
import { textOf, waysOfText } from "./charsets.mjs";
import { FNC1, MOST_LINES, MOST_LINES_OF_SHEET, MOST_TEXT, codeOf, there } from "./common.mjs";
import { PROGRAMMING, contentOf } from "./contents.mjs";

/** @typedef {import("./contents.mjs").Content} Content */
/** @typedef {{ column?: number, why?: string, ways?: { name: string, text: string }[], isTooMuch?: boolean,
    isElements?: boolean, isText?: boolean }} Fault of a text: why it isn't taken, and where; and how else it may be
    spelled */
/** @typedef {Fault & { content?: Content, contents?: Content[] }} Taken what a text stands for, and all contents by
    which it may be written, if there are several; or why it isn't taken */
/** @type {(text: string, isValue?: boolean) => Taken} */
export function parse(text, isValue = false) {
  const { head, length } = isValue ? NO_HEAD : headIn(text);
  const content = contentOf([], [], head), { items, marks } = content;
  for (let at = length; at < text.length;) {
    const code = there(text.codePointAt(at)), rest = text.slice(at, at + LONGEST_SPELLING);
    const [hex] = /^\\x[0-9A-Fa-f]{2}/.exec(rest) ?? [], [eci, number] = (!isValue && ECI_SPELLED.exec(rest)) || [];
    if (rest.startsWith("\\\\")) { items.push(92); at += 2; }
    else if (rest.startsWith("\\F")) { items.push(FNC1); at += 2; }
    else if (isValue && rest.startsWith("\\(")) { items.push(40); at += 2; }
    else if (hex) { items.push(parseInt(hex.slice(2), 16)); at += hex.length; }
    else if (eci) { marks.push({ place: items.length, number: Number(number) }); at += eci.length; }
    else if (code === 92) return { column: at + 1, why: STRAY, ways: [{ name: TWICE, text: doubled(text) }] };
    else if (code >= 32 && code <= 126) { items.push(code); at += 1; }
    else return { column: at + 1, why: `is ${named(code)}, which has no spelling of its own`, ways: respelled(text) };
  }
  return { content };
}
const HEAD_SPELLED = /^\\(?:P|A\{(\d{1,2})\/(\d{1,2}):(\d{3})(\d{3})\})/;
const NO_HEAD = { head: null, length: 0 };
// The head that a text begins with, if it does, and how many characters that has.
/** @type {(text: string) => { head: import("./contents.mjs").Head | null, length: number }} */
function headIn(text) {
  const [all, ...numbers] = HEAD_SPELLED.exec(text) ?? [], [part, parts, ...file] = numbers.map(Number);
  if (!all) return NO_HEAD;
  return { head: numbers[0] ? { part, parts, file } : PROGRAMMING, length: all.length };
}
const BACKSLASH = 92, ECI_SPELLED = /^\\E\{(\d{1,6})\}/, LONGEST_SPELLING = "\\E{999999}".length;
const STRAY = "is a backslash that doesn’t begin a spelling; those are \\\\, \\F, \\xHH and \\E{N}";
const TWICE = "with the backslash doubled";
// A text that is taken as it stands.
/** @type {(text: string) => Taken} */
export function takenAsText(text) {
  const much = tooMuch(text), contents = much ? [] : waysOfText(text);
  return much ? { why: much, isTooMuch: true } : { content: contents[0], contents, isText: true };
}
// What a content is as text, if it is that and otherwise spelled than it stands; else "".
/** @type {(content: Content) => string} */
export function unspelled(content) {
  const { items, marks } = content, isOdd = marks.length || items.some((item) => item > 127 || item === BACKSLASH);
  return isOdd && !items.includes(FNC1) ? textOf(content).text ?? "" : "";
}
// The same, if each of its characters can be seen.
/** @type {(content: Content) => string} */
export function visibleTextOf(content) {
  const text = unspelled(content), isComposed = text === text.normalize("NFC") && !LONE_MARK.test(text);
  return isComposed && Array.from(text).every((character) => character === " " || !UNSEEN.test(character)) ? text : "";
}
// Why a text is more than a field takes, or "".
/** @type {(text: string, most?: number) => string} */
export function tooMuch(text, most = MOST_TEXT) {
  const words = (/** @type {number} */ count, /** @type {string} */ what, /** @type {number} */ bound) =>
    `${count.toLocaleString("en")} ${what}, and no more than ${bound.toLocaleString("en")} are taken.`;
  if (text.length > most) return words(text.length, "characters", most);
  const lines = text.split("\n").length, mostLines = most > MOST_TEXT ? MOST_LINES_OF_SHEET : MOST_LINES;
  return lines > mostLines ? words(lines, "lines", mostLines) : "";
}

// The text with each backslash that begins no spelling doubled.
/** @type {(text: string) => string} */
const doubled = (text) => text.replace(SPELLING_OR_NONE, (found) => (found.length > 1 ? found : "\\\\"));
const SPELLING_OR_NONE = /^\\(?:P|A\{\d{1,2}\/\d{1,2}:\d{6}\})|\\(?:\\|F|x[0-9A-Fa-f]{2}|E\{\d{1,6}\})|\\/g;

/** @type {Record<number, string>} */
const CONTROLS = { 9: "a tab", 10: "a line break", 13: "a line break" };
// Controls, formats, spaces and fillers; these and marks that stand on the letter before; and such a mark that stands
// on no letter.
const UNSEEN = /[\p{C}\p{Z}\u115F\u1160\u3164\uFFA0]/u;
const INVISIBLE = /[\p{C}\p{Z}\p{M}\u115F\u1160\u3164\uFFA0]/u;
const LONE_MARK = /(?:^|[^\p{L}\p{M}\p{N}\p{S}])\p{M}/u;
/** @type {(code: number) => string} */
const codePoint = (code) => `U+${code.toString(16).toUpperCase().padStart(4, "0")}`;
/** @type {(code: number) => string} */
export function named(code) {
  if (CONTROLS[code]) return CONTROLS[code];
  if (code < 32 || code === 127) return `the control character ${codePoint(code)}`;
  const character = String.fromCodePoint(code);
  return INVISIBLE.test(character) ? `the invisible character ${codePoint(code)}` : character;
}
/** @type {(byte: number) => string} */
export const hexed = (byte) => "\\x" + byte.toString(16).toUpperCase().padStart(2, "0");

// The text with each character that has no spelling as bytes: those of Latin-1, if it has them, and those of UTF-8.
/** @type {(text: string) => { name: string, text: string }[]} */
function respelled(text) {
  const spell = (/** @type {(c: string) => number[]} */ bytesOf) =>
    Array.from(text, (c) => (c >= " " && c <= "~" ? c : bytesOf(c).map(hexed).join(""))).join("");
  const utf8 = { name: "as UTF-8", text: spell((c) => [...new TextEncoder().encode(c)]) };
  if (Array.from(text).some((c) => codeOf(c) > 255)) return [utf8];
  const latin = { name: "as Latin-1", text: spell((c) => [codeOf(c)]) };
  return latin.text === utf8.text ? [{ name: "as bytes", text: utf8.text }] : [latin, utf8];
}
/** @type {(item: number) => boolean} */
export const isPlain = (item) => item >= 32 && item <= 126 && item !== 92;
/** @type {(item: number) => string} */
export const spelledItem = (item) =>
  (isPlain(item) ? String.fromCharCode(item) : item === 92 ? "\\\\" : item === FNC1 ? "\\F" : hexed(item));
/** @type {(items: number[]) => string} */
export const spelled = (items) => items.map(spelledItem).join("");
/** @type {(content: Content) => string} */
export const spelledContent = ({ items, marks }) => spelled(items.slice(0, marks[0]?.place)) + marks
  .map(({ place, number }, k) => `\\E{${number}}${spelled(items.slice(place, marks[k + 1]?.place))}`).join("");
