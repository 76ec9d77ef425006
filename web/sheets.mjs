// Pages of symbols with their texts, drawn: as SVG, on the screen, on paper and in files, and as PNG.
import { pathOf } from "./captions.mjs";
import { there } from "./common.mjs";
import { made, numberIn, shape } from "./dom.mjs";
import { QUIET, runs, viewBox, withQuiet } from "./symbol.mjs";
import { crcOf } from "./zip.mjs";

/** @typedef {import("./common.mjs").Grid} Grid */
/** @typedef {import("./pdf.mjs").Page} Page */
/** @typedef {import("./pdf.mjs").Placed} Placed */
/** @type {(length: number) => string} */
const rounded = (length) => String(+length.toFixed(3));
/** @type {(placed: Placed) => { width: number, height: number }} */
const sizeOf = ({ grid, module }) => {
  const { rows, columns } = withQuiet(grid);
  return { width: columns * module, height: rows * module };
};
/** @type {(grid: Grid) => string} */
const symbolPath = (grid) => runs(grid, (k) => grid.modules[k]);
// A symbol at its size, with its quiet zone.
/** @type {(grid: Grid, module: number, place?: { x?: string, y?: string }) => SVGElement} */
export function symbolDrawn(grid, module, place = {}) {
  const { rows, columns } = withQuiet(grid);
  const size = (/** @type {number} */ modules) => `${+(modules * module).toFixed(2)}mm`;
  const all = { width: size(columns), height: size(rows), viewBox: viewBox(grid), "shape-rendering": "crispEdges" };
  return shape("svg", { ...place, ...all },
    shape("path", { fill: "#fff", d: `M${-QUIET} ${-QUIET}h${columns}v${rows}h${-columns}z` }),
    shape("path", { d: symbolPath(grid) }));
}
// A symbol with its text, at its place on a page in millimetres.
/** @type {(placed: Placed) => SVGElement[]} */
function placedDrawn(placed) {
  const { grid, x, y, module, caption, width, below } = placed, own = sizeOf(placed);
  const symbol = symbolDrawn(grid, module, { x: rounded(x), y: rounded(y) });
  for (const [name, length] of Object.entries(own)) symbol.setAttribute(name, rounded(length));
  if (!caption.lines.length) return [symbol];
  const at = [x + (own.width - width) / 2, y + own.height + below].map(rounded).join(" ");
  const title = shape("title", {}, caption.lines.join("\n"));
  return [symbol, shape("g", { transform: `translate(${at})` }, title, shape("path", { d: pathOf(caption, width) }))];
}
// Whether a page has a symbol alone, and is as large as that.
/** @type {(page: Page) => boolean} */
const isAlone = ({ width, height, placed }) => placed.length === 1 && !placed[0].caption.lines.length
  && sizeOf(placed[0]).width === width && sizeOf(placed[0]).height === height;
/** @type {(page: Page) => SVGElement} */
export function pageDrawn(page) {
  const { width, height, placed } = page, [across, down] = [width, height].map(rounded);
  if (isAlone(page)) return symbolDrawn(placed[0].grid, placed[0].module);
  return shape("svg", { width: `${across}mm`, height: `${down}mm`, viewBox: `0 0 ${across} ${down}` },
    shape("path", { fill: "#fff", d: `M0 0h${across}v${down}H0z` }), ...placed.flatMap(placedDrawn));
}

// ---- Files

/** @type {(page: Page) => string} */
export const svgOf = (page) => `${new XMLSerializer().serializeToString(pageDrawn(page))}\n`;
// A PNG with its pixels per metre, in a chunk after the first.
/** @type {(png: Uint8Array, perMetre: number) => Uint8Array} */
function withResolution(png, perMetre) {
  const chunk = new Uint8Array(21), view = new DataView(chunk.buffer), all = new Uint8Array(png.length + chunk.length);
  view.setUint32(0, 9);
  chunk.set([112, 72, 89, 115], 4); // pHYs
  view.setUint32(8, perMetre); view.setUint32(12, perMetre); chunk[16] = 1;
  view.setUint32(17, crcOf(chunk.subarray(4, 17)));
  all.set(png.subarray(0, 33));
  all.set(chunk, 33);
  all.set(png.subarray(33), 33 + chunk.length);
  return all;
}
// Pixels of a module: as many as are wanted, or about 600 an inch.
/** @type {(module: number) => number} */
export const pixelsOf = (module) =>
  numberIn("pixels", 1, MOST_PIXELS) ?? Math.min(32, Math.max(8, Math.round(24 * module)));
const MOST_PIXELS = 100;
// Draws a symbol with its text where it stands on a page, with so many pixels for a millimetre; modules are whole.
/** @type {(pen: CanvasRenderingContext2D, placed: Placed, each: number) => void} */
function drawPlaced(pen, placed, each) {
  const { grid, x, y, module, caption, width, below } = placed, perMillimetre = each / module, own = sizeOf(placed);
  const [left, top] = [x, y].map((length) => Math.round(length * perMillimetre));
  pen.setTransform(each, 0, 0, each, left + QUIET * each, top + QUIET * each);
  pen.fill(new Path2D(symbolPath(grid)));
  const [over, under] = [(own.width - width) / 2, own.height + below].map((length) => length * perMillimetre);
  pen.setTransform(1, 0, 0, 1, left + over, top + under);
  pen.fill(new Path2D(pathOf(caption, width, perMillimetre)));
}
/** @type {(page: Page) => Promise<Uint8Array>} */
export async function pngOf({ width, height, placed }) {
  const { module } = placed[0], each = pixelsOf(module);
  const pixels = (/** @type {number} */ length) => Math.round((length * each) / module);
  /** @type {HTMLCanvasElement} */
  const canvas = made("canvas", { width: pixels(width), height: pixels(height) }), pen = there(canvas.getContext("2d"));
  pen.fillStyle = "#fff"; pen.fillRect(0, 0, canvas.width, canvas.height); pen.fillStyle = "#000";
  for (const one of placed) drawPlaced(pen, one, each);
  const blob = await new Promise((then) => canvas.toBlob(then, "image/png"));
  return withResolution(new Uint8Array(await blob.arrayBuffer()), Math.round((1000 * each) / module));
}
