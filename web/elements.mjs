// What is read of a GS1 message, as a table of its identifiers.
import { FNC1 } from "./common.mjs";
import { elementsIn } from "./gs1.mjs";
import { spelled } from "./messages.mjs";
import { $, made, one } from "./dom.mjs";
import { VALID, mark } from "./state.mjs";

/** @type {(items: number[]) => import("./gs1.mjs").Element[]} */
export const elementsOf = (items) => elementsIn(items.slice(1));
// What is wrong with GS1 data, in words, or "".
/** @type {(content: import("./contents.mjs").Content | null) => string} */
export function wrongGs1(content) {
  const isGs1 = content?.items[0] === FNC1 && !content.head;
  const wrong = isGs1 ? elementsOf(content.items).find(({ fault }) => fault) : null;
  if (!wrong) return "";
  const identifier = wrong.identifier && `(${wrong.identifier}) `;
  return `It isn’t right as GS1 data: ${identifier}${wrong.name}, ${wrong.fault}.`;
}
/** @type {(elements: import("./gs1.mjs").Element[]) => number} */
export const faultsOf = (elements) => elements.filter(({ fault }) => fault).length;

/** @type {(element: import("./gs1.mjs").Element) => Node} */
function rowOf({ identifier, name, items, note, fault }) {
  const row = made("tr", { className: fault ? "wrong" : "" }), value = made("td");
  value.append(made("code", { textContent: spelled(items) }));
  for (const [text, className] of [[note, "note"], [fault, "fault"]])
    if (text) value.append(made("span", { className, textContent: text }));
  const identified = made("td", { textContent: identifier ? `(${identifier})` : "–" });
  row.append(identified, made("td", { textContent: name }), value);
  return row;
}
export function drawElements() {
  const it = mark(), { items, head } = it.seen?.answer ?? {};
  const isShown = it.stage === VALID && items?.[0] === FNC1 && !head;
  $("elements").hidden = !isShown;
  one("tbody", $("elements")).replaceChildren(...(isShown ? elementsOf(items).map(rowOf) : []));
}
