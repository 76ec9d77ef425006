// Everything that is shown about modules, and damage to them; all by the library.
import { meanings } from "./codewords.mjs";
import { BEYOND, BIT, MOST_ITEMS, blockOf, there } from "./common.mjs";

/** @typedef {import("./common.mjs").Grid} Grid */
/** @typedef {import("./library.mjs").Library} Library */
/** @typedef {import("./library.mjs").Size} Size */
/** @typedef {Grid & import("./library.mjs").Inspection & { doubtful: Uint8Array | null, size: Size, limit: number,
    usual: number, answer: import("./library.mjs").Answer, states: number[], isErased: boolean[],
    told: import("./codewords.mjs").Meaning[] | null, map?: any }} Seen what the library says of a symbol */

// The state of a codeword: 0 as it should be, 1 corrected, 2 in a block beyond correction. One with a doubtful module
// is erased.
/** @type {(lib: Library, grid: Grid, doubtful: Uint8Array | null, givenLimit: import("./common.mjs").Limit) =>
    Seen} */
export function examine(lib, { modules, rows, columns }, doubtful, givenLimit) {
  const grid = { modules, rows, columns }, size = there(lib.sizeOf(grid)), usual = lib.usualLimit(grid);
  const limit = lib.limitOf(grid, givenLimit, doubtful), answer = lib.read(grid, limit, doubtful);
  const inspected = lib.inspect(grid, doubtful), { held, mended, corrected, dealing } = inspected;
  const isErased = erasedBy(lib, grid, doubtful), block = (/** @type {number} */ w) => blockOf(size, dealing, w);
  const isRight = (/** @type {number} */ w) => held[w] === mended[w];
  const isBeyond = (/** @type {number} */ w) => corrected[block(w)] === BEYOND;
  const states = Array.from(held, (_, w) => (isBeyond(w) ? 2 : isRight(w) ? 0 : 1));
  const told = corrected.includes(BEYOND) ? null : meanings(mended.subarray(0, size.data));
  const erased = corrected.map((_, b) => isErased.filter((is, w) => is && block(w) === b).length);
  return { ...grid, ...inspected, erased, doubtful, size, limit, usual, answer, states, isErased, told };
}
// Of each codeword whether one of its modules is doubtful.
/** @type {(lib: Library, grid: Grid, doubtful: Uint8Array | null) => boolean[]} */
function erasedBy(lib, grid, doubtful) {
  const { kind, word, modules } = lib.map(grid), isErased = modules.map(() => false);
  doubtful?.forEach((is, k) => { if (is && kind[k] === BIT) isErased[word[k]] = true; });
  return isErased;
}

/** @type {(list: number[]) => number} */
const any = (list) => list[Math.floor(Math.random() * list.length)];

// Modules in the making, with what the library says of them after each change.
class Spoiling {
  /** @param {Library} lib @param {Grid} grid @param {Uint8Array | null} original @param {Uint8Array | null} doubtful */
  constructor(lib, grid, original, doubtful) {
    this.lib = lib;
    this.doubtful = doubtful;
    this.grid = { ...grid, modules: grid.modules.slice() };
    this.modules = this.grid.modules;
    this.size = there(lib.sizeOf(grid));
    this.map = lib.map(grid);
    this.isErased = erasedBy(lib, grid, doubtful);
    this.truth = original && lib.inspect({ ...grid, modules: original }).held;
    this.held = lib.inspect(this.grid, doubtful);
  }
  look() { this.held = this.lib.inspect(this.grid, this.doubtful); }
  // Turns over one module of a codeword of this block that is still right.
  /** @type {(block: number) => void} */
  spoilOne(block) {
    const { held, mended, corrected, dealing } = this.held, truth = this.truth ?? mended;
    const isBeyond = corrected[block] === BEYOND;
    /** @type {(w: number) => boolean} */
    const isRight = (w) => !this.isErased[w] && held[w] === truth[w] && (isBeyond || held[w] === mended[w]);
    const right = [...held.keys()].filter((w) => blockOf(this.size, dealing, w) === block && isRight(w));
    if (right.length) this.modules[any(this.map.modules[any(right)])] ^= 1;
    this.look();
  }
}

/** @type {Record<string, (spoiling: Spoiling) => void>} */
const ACTS = {
  // Each block has as many wrong codewords as can be corrected: each takes two check codewords.
  limit(spoiling) {
    const { size } = spoiling;
    /** @type {(block: number) => boolean} */
    const isDone = (block) => spoiling.held.corrected[block] === BEYOND || spoiling.held.left[block] < 2;
    for (let block = 0; block < size.blocks; block++)
      for (let guard = 0; guard < size.limit && !isDone(block); guard++) spoiling.spoilOne(block);
  },
  // One codeword more is wrong, in the block that is nearest to its limit.
  more(spoiling) {
    const { corrected, left } = spoiling.held;
    const far = left.map((count, block) => (corrected[block] === BEYOND ? Infinity : count));
    spoiling.spoilOne(far.indexOf(Math.min(...far)));
  },
  // A light line across.
  scratch(spoiling) {
    const { rows, columns } = spoiling.size, length = Math.max(4, Math.round(rows * 0.42));
    const slope = any([-1, 1]) * (0.35 + Math.random() * 0.5);
    const top = Math.floor(Math.random() * rows * 0.6), left = Math.floor(columns / 4 + Math.random() * columns * 0.6);
    for (let k = 0; k < length; k++) {
      const r = top + k, c = Math.round(left + k * slope);
      if (r < rows && c >= 0 && c < columns) spoiling.modules[r * columns + c] = 0;
    }
  },
};

// The symbol after an act of damage. The original modules are those of a written message, or null.
/** @type {(lib: Library, act: string, grid: Grid, original: Uint8Array | null, doubtful: Uint8Array | null) => Grid} */
export function damaged(lib, act, grid, original, doubtful) {
  const spoiling = new Spoiling(lib, grid, original, doubtful);
  ACTS[act](spoiling);
  return spoiling.grid;
}

// How many of the items of a content fit a symbol that is written so.
/** @type {(lib: Library, content: import("./contents.mjs").Content, how: import("./library.mjs").How) => number} */
export function mostThatFit(lib, { items, marks, head }, how) {
  const beginning = (/** @type {number} */ count) =>
    ({ items: items.slice(0, count), marks: marks.filter(({ place }) => place <= count), head });
  let low = 0, high = Math.min(items.length, MOST_ITEMS);
  while (low < high) {
    const middle = Math.ceil((low + high) / 2);
    if (lib.write(beginning(middle), how).fault) high = middle - 1; else low = middle;
  }
  return low;
}

// The map of a shape, without the lists that the page makes itself.
/** @type {(map: import("./library.mjs").Places) => { kind: Uint8Array, word: Uint16Array, bit: Uint8Array }} */
export const plainMap = ({ kind, word, bit }) => ({ kind, word, bit });
