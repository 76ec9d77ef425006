// Texts below symbols: in which lines they stand, and how large. What is shown, printed and saved has them alike, and
// whole. One with a letter that the page's font hasn't is drawn by the browser's own.
import { codeOf } from "./common.mjs";
import { WIDTH, hasLetter, outlineOf } from "./font.mjs";
import { hexed, named } from "./messages.mjs";
import { DOT, dotsOf, isDrawable, widthOf } from "./scripts.mjs";

/** @typedef {{ lines: string[], size: number, height: number, isDrawn: boolean }} Caption in millimetres: the lines of
    a text, how high their letters are, and how high all is, with the gap above it; and whether the browser's fonts draw
    it */
const SIZES = [2.4, 2.1, 1.8, 1.5]; // millimetres
export const LINE = 1.25; // from one line to the next, as a share of the size
/** @type {Caption} */
export const NO_CAPTION = { lines: [], size: SIZES[0], height: 0, isDrawn: false };

// A text as it can be seen: controls as they are spelled.
/** @type {(text: string) => string} */
const seenText = (text) => text.normalize("NFC").replace(CONTROLS, (control) => hexed(control.charCodeAt(0)));
const CONTROLS = /[\0-\x1F\x7F]/g;
// A text in pieces that aren't cut where a line has room for them: elements, or words.
const ELEMENTS = /^\(\d{2,4}\)/, NEW_ELEMENT = /(?=\(\d{2,4}\))/, NEW_WORD = /(?<=[ \-/,;:])/;
/** @type {(text: string) => string[]} */
const piecesOf = (text) => text.split(ELEMENTS.test(text) ? NEW_ELEMENT : NEW_WORD);
// How wide a line is, in heights of its letters.
/** @type {(line: string, isDrawn: boolean) => number} */
const widthAs = (line, isDrawn) => (isDrawn ? widthOf(line) : Array.from(line).length * WIDTH);
const LETTERS = /.\p{M}*/gsu; // with the marks that stand on them
// The lines of a text, each as wide as there is room, in heights of its letters; a letter at least.
/** @type {(text: string, room: number, isDrawn: boolean) => string[]} */
function linesOf(text, room, isDrawn) {
  const lines = [""];
  const hasRoom = (/** @type {string} */ more) => widthAs(lines[lines.length - 1] + more, isDrawn) <= room;
  for (const piece of piecesOf(text)) {
    if (hasRoom(piece)) { lines[lines.length - 1] += piece; continue; }
    if (lines[lines.length - 1]) lines.push("");
    for (const letter of piece.match(LETTERS) ?? []) {
      if (lines[lines.length - 1] && !hasRoom(letter)) lines.push("");
      lines[lines.length - 1] += letter;
    }
  }
  return lines;
}
// A text in room of so many millimetres: in as few lines as can be, and then as large as can be. Or why it can't be
// shown whole.
/** @type {(text: string, width: number, height?: number) => { caption?: Caption, why?: string }} */
export function captionOf(text, width, height = Infinity) {
  if (!text) return { caption: NO_CAPTION };
  const shown = seenText(text), others = Array.from(shown).filter((letter) => !hasLetter(letter));
  const lacked = others.find((letter) => !isDrawable(letter)), isDrawn = others.length > 0;
  if (lacked) return { why: `the text below has ${named(codeOf(lacked))}, which can’t be drawn` };
  const all = SIZES.filter((size) => WIDTH * size <= width)
    .map((size) => ({ size, lines: linesOf(shown, width / size, isDrawn), isDrawn }))
    .map((caption) => ({ ...caption, height: caption.lines.length * LINE * caption.size }))
    .filter((caption) => caption.height <= height);
  const least = Math.min(...all.map(({ lines }) => lines.length));
  const caption = all.find(({ lines }) => lines.length === least);
  return caption ? { caption } : { why: "the text below has no room" };
}
// Where each line begins that stands in the middle of so many millimetres, from the upper left corner.
/** @type {(caption: Caption, width: number) => { line: string, x: number, y: number }[]} */
export const placesOf = ({ lines, size, isDrawn }, width) => lines.map((line, k) =>
  ({ line, x: (width - widthAs(line.trimEnd(), isDrawn) * size) / 2, y: (k * LINE + 1) * size }));
// The outlines of all letters, or their dots, as a path, in which a millimetre has this length.
/** @type {(caption: Caption, width: number, millimetre?: number) => string} */
export function pathOf(caption, width, millimetre = 1) {
  const { size, isDrawn } = caption;
  const number = (/** @type {number} */ value) => String(+(value * millimetre).toFixed(3)), dot = number(DOT);
  /** @type {(letter: string, x: number, y: number) => string} */
  const drawn = (letter, x, y) => outlineOf(letter).map(({ word, at }) => word + at.map((value, k) =>
    number(k % 2 ? y - value * size : x + value * size)).join(" ")).join("");
  /** @type {(line: string, x: number, y: number) => string[]} */
  const dots = (line, x, y) => dotsOf(line, size).map(([left, low, length]) =>
    `M${number(x + left * DOT)} ${number(y - low * DOT)}h${number(length * DOT)}v-${dot}H${number(x + left * DOT)}z`);
  return placesOf(caption, width).flatMap(({ line, x, y }) => (isDrawn ? dots(line, x, y)
    : Array.from(line, (letter, k) => (letter === " " ? "" : drawn(letter, x + k * WIDTH * size, y))))).join("");
}
