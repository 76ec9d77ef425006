// Drawing a symbol: its modules, their states, what was turned over, and what is pointed at.
import { BIT, BORDER_DARK, BORDER_LIGHT, there } from "./common.mjs";
import { $, made, shape } from "./dom.mjs";
import { mapOf, mark } from "./state.mjs";

/** @typedef {import("./common.mjs").Shape} Shape */
/** @typedef {import("./common.mjs").Grid} Grid */
/** @typedef {import("./examine.mjs").Seen} Seen */
export const QUIET = 2; // modules of quiet zone around what is drawn and saved: readers need one, some of them two
// Light and dark: by state, and pointed at.
const COLOURS = [["#ffffff", "#14181f"], ["#ffdf9e", "#a65f00"], ["#f6d3ea", "#8a1c6a"], ["#c5e3f6", "#00629b"]];
const INKS = ["#14181f", "#fff"]; // of what is drawn on a light module, and on a dark one
const HATCHED = "url(#hatch)";
const NO_SHAPE = { rows: 10, columns: 10 }; // that is taken where there is no symbol
// A shape with its quiet zone.
/** @type {(shape: Shape) => Shape} */
export const withQuiet = ({ rows, columns }) => ({ rows: rows + 2 * QUIET, columns: columns + 2 * QUIET });
/** @type {(shape: Shape) => string} */
export function viewBox(shape) {
  const { rows, columns } = withQuiet(shape);
  return `${-QUIET} ${-QUIET} ${columns} ${rows}`;
}
/** @type {(x: number, y: number) => string} */
const crossAt = (x, y) => `M${x + 0.28} ${y + 0.28}l.44 .44m0-.44l-.44 .44`;
/** @type {(x: number, y: number) => string} */
const frameAt = (x, y) => `M${x + 0.1} ${y + 0.1}h.8v.8h-.8z`;
/** @type {(x: number, y: number) => string} */
const dotAt = (x, y) => `M${x + 0.5} ${y + 0.5}h.001`;
/** @type {(x: number, y: number) => string} */
const ringAt = (x, y) => `M${x + 0.2} ${y + 0.5}a.3 .3 0 1 0 .6 0a.3 .3 0 1 0 -.6 0`;

// The runs of wanted modules along the rows: their row, column and length.
/** @type {(shape: Shape, wanted: (k: number) => any) => [number, number, number][]} */
export function runsOf({ rows, columns }, wanted) {
  /** @type {[number, number, number][]} */
  const list = [];
  for (let r = 0; r < rows; r++) {
    for (let c = 0; c < columns; c++) {
      let end = c;
      while (end < columns && wanted(r * columns + end)) end++;
      if (end > c) { list.push([r, c, end - c]); c = end; }
    }
  }
  return list;
}
// A path over all wanted modules.
/** @type {(shape: Shape, wanted: (k: number) => any) => string} */
export const runs = (shape, wanted) => runsOf(shape, wanted).map(([r, c, length]) => `M${c} ${r}h${length}v1H${c}z`)
  .join("");
/** @type {(svg: Element, grid: Grid | null) => void} */
export function drawSmall(svg, grid) {
  svg.setAttribute("viewBox", viewBox(grid ?? NO_SHAPE));
  svg.setAttribute("shape-rendering", "crispEdges");
  svg.replaceChildren(...(grid ? [shape("path", { fill: INKS[0], d: runs(grid, (k) => grid.modules[k]) })] : []));
}

// Whether a module is known to have the wrong colour.
/** @type {(seen: Seen, modules: Uint8Array, k: number) => boolean} */
export function isWrong(seen, modules, k) {
  const { states, mended } = seen, map = mapOf(seen), kind = map.kind[k], word = map.word[k];
  if (kind !== BIT) return (kind === BORDER_LIGHT && modules[k] === 1) || (kind === BORDER_DARK && modules[k] === 0);
  return states[word] === 1 && ((mended[word] >> (8 - map.bit[k])) & 1) !== modules[k];
}

const hatch = () => shape("defs", {},
  shape("pattern", { id: "hatch", width: 0.5, height: 0.5, patternUnits: "userSpaceOnUse" },
    shape("path", { d: "M-.1 .1L.1-.1M0 .5L.5 0M.4 .6L.6 .4", stroke: "#8a1c6a", "stroke-width": 0.09,
      "shape-rendering": "auto" })));
/** @type {(colours: Uint8Array, grid: Grid) => SVGElement[]} */
function modulesDrawn(colours, grid) {
  const drawing = [hatch()];
  for (let kind = 0; kind < 4; kind++) {
    for (let dark = 0; dark < 2; dark++) {
      const d = kind || dark ? runs(grid, (k) => colours[k] === kind && grid.modules[k] === dark) : "";
      if (d) drawing.push(shape("path", { fill: COLOURS[kind][dark], d }));
      if (d && kind === 2 && !dark) drawing.push(shape("path", { fill: HATCHED, d }));
    }
  }
  return drawing;
}
/** @type {Record<string, { at: (x: number, y: number) => string, width: number }>} */
const MARKS = {
  turned: { at: crossAt, width: 0.13 }, wrong: { at: dotAt, width: 0.3 }, framed: { at: frameAt, width: 0.08 },
  doubtful: { at: ringAt, width: 0.1 },
};
/** @type {(what: string, d: string, ink: string, more?: object) => SVGElement} */
const stroked = (what, d, ink, more = {}) => shape("path", { d, stroke: ink, "stroke-width": MARKS[what].width,
  "stroke-linecap": "round", "shape-rendering": "auto", ...more });

// A cross marks a module that was turned over here, a dot one that is wrong without that; in the codeword pointed at, a
// frame around the bit's number. A ring marks one that is doubtful. Which of them there are, and their drawing.
/** @type {(it: import("./state.mjs").Mark, colours: Uint8Array) => SVGElement[]} */
function marksDrawn(it, colours) {
  const seen = there(it.seen), original = there(it.original), { modules, columns, doubtful } = seen;
  /** @type {Record<string, [string, string]>} */
  const paths = { turned: ["", ""], wrong: ["", ""], framed: ["", ""], doubtful: ["", ""] };
  /** @type {(what: string, k: number) => void} */
  const add = (what, k) => { paths[what][modules[k]] += MARKS[what].at(k % columns, Math.floor(k / columns)); };
  for (let k = 0; k < modules.length; k++) {
    const isTurned = modules[k] !== original[k];
    if (doubtful?.[k]) add("doubtful", k);
    if (isTurned || isWrong(seen, modules, k)) add(colours[k] === 3 ? "framed" : isTurned ? "turned" : "wrong", k);
  }
  const drawn = (/** @type {string} */ what, /** @type {string} */ d, /** @type {number} */ dark) =>
    stroked(what, d, INKS[dark], { class: what, fill: "none", "pointer-events": "none" });
  return Object.entries(paths).flatMap(([what, both]) => both.flatMap((d, dark) => (d ? [drawn(what, d, dark)] : [])));
}
// The numbers of a codeword's bits, on their modules.
/** @type {(word: number, of: Shape, inkOf: (module: number) => string, more: object) => SVGElement} */
export function numbersDrawn(word, of, inkOf, more) {
  const { columns } = of, numbers = mapOf(of).modules[word].map((k, bit) =>
    shape("text", { x: (k % columns) + 0.5, y: Math.floor(k / columns) + 0.7, fill: inkOf(k) }, String(bit + 1)));
  return shape("g", { "font-size": ".56", "font-family": "sans-serif", "font-weight": 600, "text-anchor": "middle",
    ...more }, ...numbers);
}
/** @type {(word: number, grid: Grid) => SVGElement} */
const bitsDrawn = (word, grid) => numbersDrawn(word, grid, (k) => (grid.modules[k] ? "#fff" : "#00456e"),
  { class: "bits", "shape-rendering": "auto", "pointer-events": "none" });
/** @type {(cursor: number, shape: Shape) => SVGElement[]} */
function cursorDrawn(cursor, { columns }) {
  const x = (cursor % columns) + 0.05, y = Math.floor(cursor / columns) + 0.05;
  const at = { x, y, width: 0.9, height: 0.9, fill: "none" };
  return [shape("rect", { ...at, stroke: "#fff", "stroke-width": 0.3 }),
    shape("rect", { ...at, stroke: "#0072b2", "stroke-width": 0.16, id: "cursor" })];
}
// The shape of what is drawn: the style sheet makes a low one wider.
/** @type {(shape: Shape) => void} */
function setShape(of) {
  const { rows, columns } = withQuiet(of);
  $("symbol").setAttribute("viewBox", viewBox(of));
  $("easel").style.setProperty("--shape", String(columns / rows));
}
export function drawSymbol() {
  const it = mark(), { seen } = it, svg = $("symbol");
  if (!seen) {
    svg.replaceChildren();
    setShape(NO_SHAPE);
    svg.setAttribute("aria-label", "No symbol");
    drawLegend(new Set());
    return;
  }
  const { rows, columns, size, modules, states } = seen, map = mapOf(seen);
  const colours = Uint8Array.from(modules, (_, k) => (map.kind[k] !== BIT ? Number(isWrong(seen, modules, k))
    : map.word[k] === it.word ? 3 : states[map.word[k]]));
  const drawing = [...modulesDrawn(colours, seen), ...marksDrawn(it, colours)];
  if (it.word !== null) drawing.push(bitsDrawn(it.word, seen));
  if (it.byKeys && document.activeElement === svg) drawing.push(...cursorDrawn(it.cursor, seen));
  setShape(seen);
  svg.replaceChildren(...drawing);
  const codewords = `${size.data} data and ${size.check} check codewords`;
  svg.setAttribute("aria-label", `Data Matrix symbol, ${rows} by ${columns} modules, ${codewords}`);
  const there = ["turned", "wrong", "doubtful"].filter((what) => svg.querySelector(`.${what}`));
  drawLegend(new Set([...colours, ...there]));
}

// ---- The legend: entries only for what there is

/** @type {[string, string | number, number][]} each with its words, what it is about, and its colours */
const LEGEND = [["turned over", "turned", 0], ["corrected, or border of the wrong colour", 1, 1],
  ["beyond correction", 2, 2], ["pointed at", 3, 3], ["wrong from the start", "wrong", 0],
  ["doubtful, as the reader is told", "doubtful", 0]];
/** @type {(what: string | number, kind: number) => SVGElement} */
function swatch(what, kind) {
  /** @type {(x: number, fill: string) => SVGElement} */
  const square = (x, fill) => shape("path", { fill, d: `M${x} 0h1v1H${x}z` });
  const [light, dark] = COLOURS[kind];
  const squares = [square(0, light), ...(kind === 2 ? [square(0, HATCHED)] : []), square(1, dark)];
  const own = String(what), is = MARKS[own];
  const marks = is ? [0, 1].map((x) => stroked(own, is.at(x, 0), INKS[x], { fill: "none" })) : [];
  return shape("svg", { viewBox: "0 0 2 1", "shape-rendering": "crispEdges", "aria-hidden": "true" },
    ...squares, ...marks);
}
let legend = ""; // what there is now
/** @type {(there: Set<string | number>) => void} */
function drawLegend(there) {
  const entries = LEGEND.filter(([, what]) => there.has(what)), names = entries.map(([name]) => name).join();
  if (names === legend) return;
  legend = names;
  $("legend").replaceChildren(...entries.map(([name, what, kind]) => made("li", {}, swatch(what, kind), name)));
}
