// Labels of the list of many messages, as they will be: three at a time, the first ones first.
import { plural, there } from "./common.mjs";
import { $, folded, hint, made, setUsable, whenUsed } from "./dom.mjs";
import { entriesOf, faultIn } from "./entries.mjs";
import { whenShown } from "./flow.mjs";
import { readable } from "./gs1.mjs";
import { labelOf } from "./labels.mjs";
import { linesNow, versionNow, whenListed } from "./lines.mjs";
import { pageDrawn } from "./sheets.mjs";
import { store } from "./state.mjs";
import { millimetres } from "./taking.mjs";

const AT_ONCE = 3, AFTER_A_KEY = 150; // labels; milliseconds after the last key
let from = 0; // the first line that is shown
let timerOfLabels = 0;

/** @type {(entry: import("./entries.mjs").Entry) => Node} */
function labelShown(entry) {
  const { number, content, copies } = entry;
  const told = `${number}${copies === 1 ? "" : `, ${plural(copies, "copy", "copies")}`}: `;
  const { why, page } = entry.why ? { why: `${told}${entry.why}`, page: null } : labelOf(entry, millimetres());
  if (why) return made("figure", {}, made("p", { className: "hint bad", textContent: why }));
  const said = made("p", {}, told, made("code", { textContent: readable(content) }));
  return made("figure", {}, pageDrawn(there(page)), said);
}
/** @type {(lines: import("./csv.mjs").Line[]) => void} */
function drawSteps(lines) {
  const last = Math.min(lines.length, from + AT_ONCE), fault = faultIn(lines);
  $("labels").hidden = !lines.length;
  hint("labels-shown", `${from + 1} to ${last} of ${lines.length}${fault && `. ${fault}`}`, Boolean(fault));
  setUsable("labels-back", from > 0);
  setUsable("labels-on", last < lines.length);
}
// Shows the labels from `from` on, unless the list is another one by then.
async function showLabels() {
  timerOfLabels = 0;
  if (store.task !== "make" || !folded("sheet").open) return;
  const own = versionNow(), lines = linesNow(), begin = from;
  drawSteps(lines);
  const { entries = [] } = await entriesOf(lines.slice(begin, begin + AT_ONCE), begin + 1, "labels");
  if (own === versionNow() && begin === from) $("labels-are").replaceChildren(...entries.map(labelShown));
}
function soon() {
  clearTimeout(timerOfLabels);
  timerOfLabels = setTimeout(showLabels, AFTER_A_KEY);
}
/** @type {(by: number) => void} */
function leaf(by) { from = Math.max(0, from + by); showLabels(); }
export function wirePreview() {
  whenListed(() => { from = 0; soon(); });
  whenShown(soon);
  $("sheet").addEventListener("toggle", soon);
  whenUsed("labels-back", () => leaf(-AT_ONCE));
  whenUsed("labels-on", () => leaf(AT_ONCE));
}
