// How good the print of a symbol is, as the sampler measures it: of this picture, uncalibrated.
import { there } from "./common.mjs";
import { LAYOUT } from "./layouts.mjs";

/** @typedef {"A" | "B" | "C" | "D" | "F"} Grade */
/** @typedef {{ contrast: number, modulation: number, unused: number[], axial: number, grid: number, growth: number[],
    border: number[], quiet: number[], readable: number[], weakest: string, grades: Record<string, Grade>,
    modulations: number[] }} Quality by the names that library/python/ecc200/core.py has */
/** @type {Record<string, number>} */
const QUALITY = LAYOUT.sample_quality;
/** @type {Grade[]} */
const GRADES = ["F", "D", "C", "B", "A"];
const GRADED = ["contrast", "modulation", "unused", "axial", "grid"];
const CONTRAST_GRADES = [["A", 0.7], ["B", 0.55], ["C", 0.4], ["D", 0.2], ["F", 0]]; // and where each begins
const DOUBLE = 8, FLOAT = 4;
const LEVELS = 4, SIDES = 4; // of modulation; of a symbol

// What the sampler has left in its memory.
/** @type {(view: DataView, at: number) => Quality} */
export function qualityAt(view, at) {
  const short = (/** @type {number} */ place) => view.getUint16(at + place, true);
  const grade = (/** @type {string} */ name) => view.getUint8(at + QUALITY[name]);
  const doubles = (/** @type {number} */ place, /** @type {number} */ count) =>
    Array.from({ length: count }, (_, k) => view.getFloat64(at + place + k * DOUBLE, true));
  const [contrast, modulation, axial, grid] = ["contrast", "modulation", "axial", "grid"]
    .map((name) => view.getFloat64(at + QUALITY[name], true));
  const words = new Uint8Array(view.buffer, at + QUALITY.weakest, QUALITY.modulations - QUALITY.weakest);
  return {
    contrast, modulation, axial, grid,
    unused: doubles(QUALITY.unused, short(QUALITY.blocks)), growth: doubles(QUALITY.growth, 2),
    border: doubles(QUALITY.border, SIDES), quiet: doubles(QUALITY.quiet, SIDES),
    readable: Array.from({ length: LEVELS }, (_, k) => short(QUALITY.readable + 2 * k)),
    weakest: String.fromCharCode(...words.subarray(0, words.indexOf(0))),
    grades: Object.fromEntries(GRADED.map((name) => [name, GRADES[grade(`${name}_grade`)]])),
    modulations: Array.from({ length: short(QUALITY.codewords) },
      (_, k) => view.getFloat32(at + QUALITY.modulations + k * FLOAT, true)),
  };
}

// The same of a picture whose greys were spread: so much of all greys was between them.
/** @type {(quality: Quality | undefined, share: number) => Quality | null} */
export function unspread(quality, share) {
  if (!quality || share === 1) return quality ?? null;
  const contrast = quality.contrast * share;
  const [name] = there(CONTRAST_GRADES.find(([, begin]) => contrast >= Number(begin)));
  return { ...quality, contrast, grades: { ...quality.grades, contrast: /** @type {Grade} */ (name) } };
}
