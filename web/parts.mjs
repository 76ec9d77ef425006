// A message in several symbols (structured append): into how many it is taken apart, and which of them is shown.
import { markedThroughout } from "./charsets.mjs";
import { there } from "./common.mjs";
import { $, field, made, setUsable, whenUsed } from "./dom.mjs";
import { takenApart } from "./contents.mjs";

export const MOST_PARTS = 16;
let part = 1; // that is shown

/** @type {() => number} */
export const partsNow = () => Number(field("parts").value);
export const partNow = () => Math.min(part, partsNow());
// The contents of what is taken, in so many parts, in each way to write it; of what has a head of its own, that alone.
/** @type {(taken: import("./messages.mjs").Taken, parts: number) => import("./contents.mjs").Content[][]} */
export const waysTaken = ({ content, contents = [there(content)], isText }, parts) => contents.map((way) =>
  (way.head ? [way] : takenApart(isText && parts > 1 ? markedThroughout(way) : way, parts)));
// Chooses what a link has; one symbol, if that is no number of parts.
/** @type {(parts: number, shown: number) => void} */
export function chooseParts(parts, shown) {
  field("parts").value = String(Number.isInteger(parts) && parts >= 1 && parts <= MOST_PARTS ? parts : 1);
  part = Math.max(1, Math.min(partsNow(), shown));
  showPart();
}
export function showPart(parts = partsNow()) {
  const shown = partNow();
  $("part-steps").hidden = parts === 1;
  $("part-shown").textContent = `Part ${shown} of ${parts}`;
  setUsable("part-back", shown > 1);
  setUsable("part-on", shown < parts);
}
/** @type {(write: () => void) => void} */
export function wireParts(write) {
  const options = Array.from({ length: MOST_PARTS }, (_, k) =>
    made("option", { value: String(k + 1), textContent: k ? `${k + 1} symbols` : "one symbol" }));
  $("parts").replaceChildren(...options);
  const leaf = (/** @type {number} */ by) => { chooseParts(partsNow(), partNow() + by); write(); };
  $("parts").addEventListener("change", () => { chooseParts(partsNow(), 1); write(); });
  whenUsed("part-back", () => leaf(-1));
  whenUsed("part-on", () => leaf(1));
}
