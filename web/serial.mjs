// Serial numbers, which are added to the list of many messages: a line each, with the same text before and behind.
import { MOST_LINES_OF_SHEET, MOST_OF_SHEET, plural } from "./common.mjs";
import { $, field, hint } from "./dom.mjs";
import { isCsv, listChanged } from "./lines.mjs";
import { tooMuch } from "./messages.mjs";

// So many numbers from the first one on, each with as many digits as that has, or more.
/** @type {(first: string, count: number) => string[]} */
export const serialNumbers = (first, count) =>
  Array.from({ length: count }, (_, k) => String(BigInt(first) + BigInt(k)).padStart(first.length, "0"));
// Why no numbers are added, or "".
/** @type {(first: string, count: number) => string} */
function whyNoNumbers(first, count) {
  if (isCsv()) return "Serial numbers are added to lines that are messages, and not to CSV.";
  if (!/^\d{1,30}$/.test(first)) return "The first number has 1 to 30 digits.";
  const most = MOST_LINES_OF_SHEET.toLocaleString("en");
  return Number.isInteger(count) && count >= 1 && count <= MOST_LINES_OF_SHEET ? "" : `From 1 to ${most} can be added.`;
}
function addNumbers() {
  const first = field("serial-first").value.trim(), count = Number(field("serial-count").value);
  const [before, behind] = ["serial-before", "serial-behind"].map((id) => field(id).value);
  const none = whyNoNumbers(first, count), had = field("messages").value.replace(/\n+$/, "");
  const lines = none ? [] : serialNumbers(first, count).map((number) => `${before}${number}${behind}`);
  const text = [had, ...lines].filter(Boolean).join("\n"), why = none || tooMuch(text, MOST_OF_SHEET);
  if (!why) {
    field("messages").value = text;
    field("serial-first").value = serialNumbers(first, count + 1)[count];
    listChanged();
  }
  hint("sheet-hint", why || `${plural(count, "line is", "lines are")} added.`, Boolean(why));
}
export function wireSerial() { $("serial-add").addEventListener("click", addNumbers); }
