// The paper: sheets with a margin, on which nothing may be wider than there is room, since browsers would print it
// smaller; or labels, each as large as its symbol.
import { $, field, made } from "./dom.mjs";

const MARGIN = 15; // millimetres on each side of a sheet
/** @type {Record<string, { name: string, width: number, height: number }>} */
const PAPERS = { a4: { name: "A4", width: 210, height: 297 }, letter: { name: "Letter", width: 215.9, height: 279.4 } };
const rule = made("style");

/** @typedef {{ name: string, width: number, height: number, margin: number, across: number, down: number }} Paper in
    millimetres: of a sheet, of each margin, and within these */
// The paper that is chosen, or null for labels.
/** @type {() => Paper | null} */
export function paperNow() {
  const paper = PAPERS[field("paper-size").value];
  return paper ? { ...paper, margin: MARGIN, across: paper.width - 2 * MARGIN, down: paper.height - 2 * MARGIN } : null;
}
// Why a symbol of so many millimetres can't be printed at its size, or "".
/** @type {(millimetres: number) => string} */
export function tooWide(millimetres) {
  const paper = paperNow();
  if (!paper || millimetres <= paper.across) return "";
  return `${paper.name} has room for ${paper.across} mm within its margins. Take narrower modules, or a label.`;
}
// Sets the page for symbols of at most so many millimetres.
/** @type {(width: number, height: number) => void} */
export function setPage(width, height) {
  const paper = paperNow();
  if (paper) setPageSize(paper.width, paper.height, MARGIN); else setPageSize(width, height);
}
// Sets the page to these millimetres.
/** @type {(width: number, height: number, margin?: number) => void} */
export function setPageSize(width, height, margin = 0) {
  rule.textContent = `@page { size: ${width}mm ${height}mm; margin: ${margin}mm; }`;
}
/** @type {(changed: () => void) => void} */
export function wirePaper(changed) {
  document.head.append(rule);
  setPage(0, 0);
  $("paper-size").addEventListener("change", changed);
}
