// Grids: as text, and turned.
import { AUTO, MOST_COLUMNS, MOST_ROWS, MOST_TEXT, plural } from "./common.mjs";
import { tooMuch } from "./messages.mjs";

/** @typedef {import("./common.mjs").Grid} Grid */
/** @typedef {import("./library.mjs").Library} Library */
/** @typedef {{ quarters: number, mirrored: boolean, inverted: boolean }} Stand how a symbol stands */
/** @type {(grid: Grid) => string} */
export function gridText({ modules, rows, columns }) {
  const lineAt = (/** @type {number} */ r) => Array.from(modules.subarray(r * columns, (r + 1) * columns)).join("");
  return Array.from({ length: rows }, (_, r) => `${lineAt(r)}\n`).join("");
}

// Whether a text is meant as a grid, and not as a message: several lines of nothing else than modules.
/** @type {(text: string) => boolean} */
export const isGrid = (text) =>
  text.length <= MOST_TEXT && /\S.*\n.*\S/s.test(text) && (/^[01\s]+$/.test(text) || /^[#Xx.\s]+$/.test(text));

// Rows of 0 and 1; or with # or X for dark and . or space for light, in which spaces that an editor cut off at the
// right are restored. Symbols may lie on their side.
/** @type {(text: string, lib: Library) => { why?: string, grid?: Grid }} */
export function gridFrom(text, lib) {
  const much = tooMuch(text);
  if (much) return { why: much };
  const isPictured = /[#Xx]/.test(text);
  let lines = text.split(/\r?\n/).filter((line) => line.trim());
  if (!lines.length) return { why: "Paste the rows of a grid here." };
  if (isPictured) {
    const width = lines.reduce((most, line) => Math.max(most, line.trimEnd().length), 0);
    const indent = lines.reduce((least, line) => Math.min(least, line.search(/\S/)), width);
    lines = lines.map((line) => line.trimEnd().padEnd(width).slice(indent));
  } else lines = lines.map((line) => line.trim());
  const why = unfit(lines, isPictured, lib);
  if (why) return { why };
  const modules = Uint8Array.from(Array.from(lines.join(""), (c) => Number(/[1#Xx]/.test(c))));
  return { grid: { modules, rows: lines.length, columns: lines[0].length } };
}

// Why lines are no grid of a size that there is, if they aren't.
/** @type {(lines: string[], isPictured: boolean, lib: Library) => string} */
function unfit(lines, isPictured, lib) {
  const odd = lines.findIndex((line) => (isPictured ? /[^#Xx. ]/ : /[^01]/).test(line));
  if (odd >= 0) return `Row ${odd + 1} has a character other than ${isPictured ? "#, X, . and space" : "0 and 1"}.`;
  const isLarge = lines.length > MOST_ROWS || lines.some((line) => line.length > MOST_COLUMNS);
  if (isLarge) return `More than ${MOST_ROWS} rows or ${MOST_COLUMNS} columns, and no symbol has as many.`;
  const columns = lines[0].length, uneven = lines.findIndex((line) => line.length !== columns);
  const has = (/** @type {number} */ row) => `row ${row + 1} has ${plural(lines[row].length, "module", "modules")}`;
  if (uneven >= 0) return `Not a rectangle: ${has(0)}, and ${has(uneven)}.`;
  if (standsOf(lib, { rows: lines.length, columns }).length) return "";
  const rows = plural(lines.length, "row", "rows");
  return `There ${lines.length === 1 ? "is" : "are"} ${rows} of ${plural(columns, "module", "modules")}, and no size `
    + "has these, upright or on its side.";
}

// The upright symbol of one that was mirrored left to right or not, then turned clockwise by so many quarters, and
// inverted or not.
/** @type {(grid: Grid, stand: Stand) => Grid} */
export function upright(grid, { quarters, mirrored, inverted }) {
  const { rows, columns } = shapeOf(grid, quarters), modules = new Uint8Array(grid.modules.length);
  for (let k = 0; k < modules.length; k++) {
    let [r, c, down, across] = [Math.floor(k / columns), k % columns, rows, columns];
    if (mirrored) c = columns - 1 - c;
    for (let q = 0; q < quarters; q++) [r, c, down, across] = [c, down - 1 - r, across, down];
    modules[k] = grid.modules[r * across + c] ^ (inverted ? 1 : 0);
  }
  return { modules, rows, columns };
}
// The shape of what stands so many quarters from upright.
/** @type {(shape: import("./common.mjs").Shape, quarters: number) => import("./common.mjs").Shape} */
const shapeOf = ({ rows, columns }, quarters) => (quarters % 2 ? { rows: columns, columns: rows } : { rows, columns });
const TURNS = [0, 1, 2, 3];
/** @type {Stand[]} */
const STANDS = [false, true].flatMap((inverted) => [false, true].flatMap((mirrored) =>
  TURNS.map((quarters) => ({ quarters, mirrored, inverted }))));
// The ways in which a grid of this shape can stand, upright first: all sixteen if it is a square, half of them if not.
/** @type {(lib: Library, shape: import("./common.mjs").Shape) => Stand[]} */
const standsOf = (lib, shape) => STANDS.filter(({ quarters }) => lib.sizeOf(shapeOf(shape, quarters)));
// Whether there is a size that has this shape, upright or on its side.
/** @type {(lib: Library, shape: import("./common.mjs").Shape) => boolean} */
export const hasShape = (lib, shape) => standsOf(lib, shape).length > 0;
/** @type {(stand: Stand) => string} */
export function standsHow({ quarters, mirrored, inverted }) {
  const ways = ["", "a quarter to the right", "upside down", "a quarter to the left"];
  const turned = quarters && `turned ${ways[quarters]}`;
  const parts = [inverted && "inverted, light for dark", mirrored && "mirrored left to right", turned];
  return parts.filter(Boolean).join(", and ");
}

// The first way to stand in which a grid is read, upright first; if there is none, the first one that it can have.
// Where it isn't read with a border as usual any border is taken, if each block keeps a correction unused.
/** @type {(lib: Library, grid: Grid) => Grid & { isRead: boolean, how: string, limit?: "auto" }} */
export function found(lib, grid) {
  const stands = standsOf(lib, grid), shown = stands.map((stand) => upright(grid, stand));
  /** @type {(limit: import("./common.mjs").Limit) => number} */
  const firstAt = (limit) => shown.findIndex((it) => !lib.read(it, lib.limitOf(it, limit)).fault);
  const usual = firstAt(null), at = usual < 0 ? firstAt(AUTO) : usual, isRead = at >= 0, place = isRead ? at : 0;
  const limit = isRead && usual < 0 ? { limit: AUTO } : {};
  return { ...shown[place], isRead, how: standsHow(stands[place]), ...limit };
}

// Whether a grid has the border of a symbol, however it stands.
/** @type {(lib: Library, grid: Grid) => boolean} */
export const hasBorder = (lib, grid) =>
  standsOf(lib, grid).some((stand) => lib.inspect(upright(grid, stand)).border <= lib.usualLimit(grid));
