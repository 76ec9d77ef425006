// Lines with letters that the page's font hasn't, in any script, drawn by the browser's own fonts: as runs of dots, 600
// an inch, so that they are the same on the screen, on paper and in files.
import { there } from "./common.mjs";
import { made } from "./dom.mjs";
import { runsOf } from "./symbol.mjs";

export const DOT = 25.4 / 600; // millimetres
const FAMILY = "\"DejaVu Sans Mono\", monospace, sans-serif", EACH = 100; // pixels, by which widths are measured
const ABOVE = 1.1, ALL = 1.5, BESIDE = 0.2; // heights of letters: of a line, and what may reach beyond its ends
const NO_LETTER = /[\p{Cc}\p{Cn}\p{Co}\p{Cs}]/u, NONE = "\u{10FFFD}", DARK = 128;
const FROM_THE_RIGHT = /^\P{L}*[\p{Script=Arabic}\p{Script=Hebrew}\p{Script=Syriac}\p{Script=Thaana}\p{Script=Nko}]/u;
/** @type {Map<string, boolean>} */
const drawable = new Map();

/** @type {(pixels: number, line: string) => CanvasRenderingContext2D} */
function penOf(pixels, line) {
  const pen = there(made("canvas").getContext("2d", { willReadFrequently: true }));
  [pen.canvas.width, pen.canvas.height] = [Math.ceil((widthOf(line) + 2 * BESIDE) * pixels), Math.ceil(ALL * pixels)];
  Object.assign(pen, { font: `${pixels}px ${FAMILY}`, direction: FROM_THE_RIGHT.test(line) ? "rtl" : "ltr" });
  return pen;
}
/** @type {CanvasRenderingContext2D | null} */
let measuring = null;
// How wide a line is, in heights of its letters.
/** @type {(line: string) => number} */
export function widthOf(line) {
  const pen = measuring ??= there(made("canvas").getContext("2d"));
  pen.font = `${EACH}px ${FAMILY}`;
  return pen.measureText(line).width / EACH;
}
// The opacity of each dot of a line whose letters are so many dots high.
/** @type {(line: string, pixels: number) => { rows: number, columns: number, ink: Uint8ClampedArray }} */
function drawn(line, pixels) {
  const pen = penOf(pixels, line), { width: columns, height: rows } = pen.canvas;
  pen.textAlign = "left";
  pen.fillText(line, BESIDE * pixels, ABOVE * pixels);
  const { data } = pen.getImageData(0, 0, columns, rows);
  return { rows, columns, ink: data.filter((_, k) => k % 4 === 3) };
}
// Whether one of the browser's fonts has a letter: it isn't drawn as what none has.
/** @type {(letter: string) => boolean} */
export function isDrawable(letter) {
  const known = drawable.get(letter) ?? (!NO_LETTER.test(letter)
    && String(drawn(letter, EACH / 4).ink) !== String(drawn(NONE, EACH / 4).ink));
  drawable.set(letter, known);
  return known;
}
// The runs of a line's dots, each with its left end from that of the line, its lower edge from that on which letters
// stand, upwards, and its length.
/** @type {(line: string, size: number) => [number, number, number][]} */
export function dotsOf(line, size) {
  const pixels = size / DOT, { ink, ...shape } = drawn(line, pixels);
  return runsOf(shape, (k) => ink[k] >= DARK).map(([row, column, length]) =>
    [column - Math.round(BESIDE * pixels), Math.round(ABOVE * pixels) - row - 1, length]);
}
