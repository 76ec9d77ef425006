// How good the print of a symbol is that was found in a picture, as a table.
import { $, made, one } from "./dom.mjs";
import { VALID, mark } from "./state.mjs";

/** @typedef {import("./quality.mjs").Quality} Quality */
const SIDES = ["above", "on the right", "below", "on the left"];
/** @type {(share: number) => string} */
const percent = (share) => `${Math.round(share * 100)} %`;
/** @type {(shares: number[]) => string} */
function damageWords(shares) {
  const words = shares.map((share, k) => (share > 0 ? `${percent(share)} ${SIDES[k]}` : ""));
  return words.filter(Boolean).join(", ") || "none";
}
/** @type {(growth: number) => string} */
const growthWords = (growth) => `${growth < 0 ? "−" : "+"}${Math.abs(growth).toFixed(2)}`;
// What is shown: the grade, if there is one, what it is of, and the number.
/** @type {(quality: Quality) => [string, string, string][]} */
function rowsOf({ grades, contrast, modulation, unused, axial, grid, growth, border, quiet, weakest, ...more }) {
  const of = more.modulations.length, counts = more.readable.join(", ");
  return [
    [grades.contrast, "contrast", percent(contrast)],
    [grades.modulation, "modulation",
      `${modulation.toFixed(2)} at the least; of ${of} codewords readable at .5, .4, .3, .2: ${counts}`],
    [grades.unused, "error correction unused", unused.map(percent).join(", ")],
    [grades.axial, "axial nonuniformity", percent(axial)],
    [grades.grid, "grid nonuniformity", `${grid.toFixed(2)} modules`],
    ["–", "print growth", `${growthWords(growth[0])} modules across, ${growthWords(growth[1])} down`],
    ["–", "damage of the border", damageWords(border)],
    ["–", "damage of the quiet zone", damageWords(quiet)],
    ["–", "weakest place", weakest],
  ];
}
export function drawPrint() {
  const { stage, quality } = mark(), isShown = stage === VALID && quality !== null;
  /** @type {(cells: string[]) => Node} */
  const row = (cells) => made("tr", {}, ...cells.map((textContent) => made("td", { textContent })));
  $("print-quality").hidden = !isShown;
  one("tbody", $("print-quality")).replaceChildren(...(isShown ? rowsOf(quality).map(row) : []));
}
