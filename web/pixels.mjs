// A picture that is a grid: each module is a pixel, or a rectangle of as many pixels as every other, with a margin of
// one colour or none.
import { MOST_COLUMNS, MOST_ROWS } from "./common.mjs";

/** @typedef {import("./common.mjs").Grid} Grid */
/** @typedef {{ left: number, top: number, width: number, height: number }} Frame in pixels */
const MOST_SIDE = Math.max(MOST_ROWS, MOST_COLUMNS);

// The least and the most of many greys, or of every few of them. A plain loop, since there may be millions.
/** @type {(grey: Uint8Array, step?: number) => [number, number]} */
export function extent(grey, step = 1) {
  let least = 255, most = 0;
  for (let k = 0; k < grey.length; k += step) {
    if (grey[k] < least) least = grey[k];
    if (grey[k] > most) most = grey[k];
  }
  return [least, most];
}
/** @type {(a: number, b: number) => number} */
const gcd = (a, b) => { while (b) [a, b] = [b, a % b]; return a; };
// Of each pixel whether it is dark, if the picture has two colours that are told apart; else null.
/** @type {(grey: Uint8Array, between: [number, number]) => Uint8Array | null} */
function twoColours(grey, [least, most]) {
  const dark = new Uint8Array(grey.length), reach = (most - least) / 4;
  for (let k = 0; k < grey.length; k++) {
    const isDark = grey[k] <= least + reach;
    if (!isDark && grey[k] < most - reach) return null;
    dark[k] = isDark ? 1 : 0;
  }
  return least < most ? dark : null;
}
// The smallest rectangle that holds all pixels of a colour.
/** @type {(dark: Uint8Array, width: number, colour: number) => Frame} */
function frameOf(dark, width, colour) {
  let left = width, right = -1, top = -1, bottom = -1;
  for (let k = 0; k < dark.length; k++) {
    if (dark[k] !== colour) continue;
    const x = k % width, y = (k - x) / width;
    if (top < 0) top = y;
    bottom = y;
    if (x < left) left = x;
    if (x > right) right = x;
  }
  return { left, top, width: right - left + 1, height: bottom - top + 1 };
}
// The length of which the length of a line, and each place at which it changes somewhere, is a multiple.
/** @type {(length: number, isChange: (at: number) => boolean) => number} */
function unitOf(length, isChange) {
  let unit = length;
  for (let at = 1; at < length && unit > 1; at++) if (isChange(at)) unit = gcd(unit, at);
  return unit;
}
/** @type {(count: number, is: (k: number) => boolean) => boolean} */
function isSome(count, is) {
  for (let k = 0; k < count; k++) if (is(k)) return true;
  return false;
}
/** @type {(dark: Uint8Array, width: number, frame: Frame) => Grid | null} */
function gridIn(dark, width, { left, top, width: wide, height: high }) {
  const at = (/** @type {number} */ x, /** @type {number} */ y) => dark[(top + y) * width + left + x];
  const across = unitOf(wide, (x) => isSome(high, (y) => at(x, y) !== at(x - 1, y)));
  const down = unitOf(high, (y) => isSome(wide, (x) => at(x, y) !== at(x, y - 1)));
  const columns = wide / across, rows = high / down;
  if (rows > MOST_SIDE || columns > MOST_SIDE) return null;
  const modules = Uint8Array.from({ length: rows * columns }, (_, k) =>
    at((k % columns) * across, Math.floor(k / columns) * down));
  return { modules, rows, columns };
}
// The grids that a picture may be: in the frame of what is dark in it, and in that of what is light.
/** @type {(grey: Uint8Array, width: number, between: [number, number]) => { grid: Grid, frame: Frame }[]} */
export function gridsOfPixels(grey, width, between) {
  const dark = twoColours(grey, between);
  if (!dark) return [];
  const frames = [frameOf(dark, width, 1), frameOf(dark, width, 0)];
  return frames.flatMap((frame) => {
    const grid = gridIn(dark, width, frame);
    return grid ? [{ frame, grid }] : [];
  });
}
