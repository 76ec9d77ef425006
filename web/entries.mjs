// The symbols of the list of many messages, with their texts: all of them, to be given, or some, to be looked at.
import { plural, there } from "./common.mjs";
import { field } from "./dom.mjs";
import { wrongGs1 } from "./elements.mjs";
import { desks } from "./flow.mjs";
import { contentOf } from "./contents.mjs";
import { isCsv, linesNow, whyNotYet } from "./lines.mjs";
import { brokenWords, isBroken } from "./order.mjs";
import { partsNow, waysTaken } from "./parts.mjs";
import { howIn } from "./sizes.mjs";
import { formNow, takenNow } from "./source.mjs";
import { tooLong } from "./words.mjs";

/** @typedef {import("./contents.mjs").Content} Content */
/** @typedef {{ number: number, text: string, copies: number, content: Content, grid?: import("./common.mjs").Grid,
    why?: string }} Entry of the list, by its number there: the symbol with its text and what it says, or why there is
    none */
/** @typedef {import("./csv.mjs").Line} Line */
/** @typedef {{ taken?: import("./messages.mjs").Taken, why: string }} Read of a line: what it stands for, or why it
    isn't taken */
const MOST_ON_SHEET = 10000; // labels

/** @type {(line: Line) => Read} */
function readLine({ message, why }) {
  if (why) return { why: `${why}.` };
  if (!message.trim()) return { why: "its row has no message." };
  const taken = takenNow(message), { content, column, why: fault } = taken;
  return content ? { taken, why: wrongGs1(content) } : { why: column ? `column ${column} ${fault}` : fault ?? "" };
}
// Why the list as a whole isn't taken, or "".
/** @type {(lines: Line[]) => string} */
function whyNoList(lines) {
  const none = isCsv() ? "Enter headings, and below them a row for each message." : "Enter a message on each line.";
  if (!lines.length) return none;
  const count = partsNow() * lines.reduce((sum, { copies }) => sum + copies, 0);
  if (!count) return "Each row has 0 copies.";
  if (count <= MOST_ON_SHEET) return "";
  const all = count > lines.length ? "labels" : "messages";
  return `${plural(count, "message", all)}, and a list takes no more than ${MOST_ON_SHEET.toLocaleString("en")}.`;
}
/** @type {(number: number, why: string) => string} */
const ofMessage = (number, why) => `Message ${number}: ${why}`;
// The first of the lines that isn't taken, in words, or "".
/** @type {(lines: Line[]) => string} */
export function faultIn(lines) {
  const faults = lines.map((line) => readLine(line).why), bad = faults.findIndex(Boolean);
  return bad < 0 ? "" : ofMessage(bad + 1, faults[bad]);
}
// A line that is to be written: its contents, one for each part, in each way, and the entries, without their symbols.
/** @type {(line: Line, number: number) => { ways: Content[][], entries: Omit<Entry, "content" | "grid">[] }} */
function askedOf(line, number) {
  const { taken, why } = readLine(line), { message, text, copies } = line;
  const ways = why ? [[contentOf([])]] : waysTaken(there(taken), partsNow()), [{ length }] = ways;
  const below = field("label-text").checked ? text ?? message : "";
  const textOfPart = (/** @type {number} */ k) => (below && length > 1 ? `${below} (${k + 1}/${length})` : below);
  return { ways, entries: Array.from({ length }, (_, k) => ({ number, text: textOfPart(k), copies, why })) };
}
// What becomes of some of the lines, from this one on; or why there is no answer.
/** @type {(lines: Line[], first: number, lane: string) => Promise<{ why?: string, entries?: Entry[] }>} */
export async function entriesOf(lines, first, lane) {
  const how = howIn(formNow()), asked = lines.map((line, k) => askedOf(line, first + k));
  const written = await desks.quick.ask("sheet", { lines: asked.map(({ ways }) => ways), how }, lane);
  if (!written || isBroken(written)) return { why: brokenWords(written ?? { stopped: true }) };
  return { entries: asked.flatMap(({ ways, entries }, k) => entries.map((entry, part) => {
    const { way, symbols } = written[k], grid = symbols[part];
    return { ...entry, content: ways[way][part], grid, why: entry.why || (grid ? "" : tooLong(how)) };
  })) };
}
// The symbols of all lines; or why there are none.
/** @type {() => Promise<{ why?: string, entries?: Entry[] }>} */
export async function entriesNow() {
  const lines = linesNow(), why = whyNotYet() || whyNoList(lines) || faultIn(lines);
  if (why) return { why };
  const { why: broken, entries } = await entriesOf(lines, 1, "sheet");
  const bad = entries?.find((entry) => entry.why);
  return bad ? { why: ofMessage(bad.number, bad.why ?? "") } : { why: broken, entries };
}
// Each as often as it is wanted.
/** @type {(entries: Entry[]) => Entry[]} */
export const copied = (entries) => entries.flatMap((entry) => Array(entry.copies).fill(entry));
