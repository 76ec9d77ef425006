// The list of many messages: what is entered, line by line or in columns, and what has to be asked about the columns.
import {
  COPIES, ELEMENT, MESSAGE, TEXT, UNUSED, canMean, isLikelyData, isOpen, isTable, likely, linesOf, tableOf,
  whyNoMessage,
} from "./csv.mjs";
import { $, field, hint, made, withCode } from "./dom.mjs";
import { nameOfIdentifier } from "./gs1.mjs";

/** @typedef {import("./csv.mjs").Line} Line */
/** @typedef {import("./csv.mjs").Table} Table */
/** @typedef {{ key: string, table: Table, meaning: import("./csv.mjs").Meaning, isAnswered: boolean }} Asked */
/** @type {Asked | null} which stays while the first row is the same */
let askedLast = null;
/** @type {(() => void)[]} */
const whoListens = [];
/** @type {(listener: () => void) => void} */
export const whenListed = (listener) => { whoListens.push(listener); };
let version = 0; // of the list, and of how it is to look
export const versionNow = () => version;

let opened = ""; // the text of a file, with its line ends, which a field doesn't keep
/** @type {() => string} */
export function listText() {
  const { value } = field("messages");
  return opened.replace(/\r\n?/g, "\n") === value ? opened : value;
}
/** @type {(text: string) => void} */
export function setListText(text) {
  opened = text;
  field("messages").value = text;
}
export const isCsv = () => field("lines-as").value === "csv";
/** @type {(table: Table) => string} */
const keyOf = ({ rows, columns }) => JSON.stringify([rows[0], columns.length]);
// What is known or answered of the columns that are entered.
/** @type {() => Asked} */
function askedNow() {
  const table = tableOf(listText()), key = keyOf(table);
  if (askedLast?.key !== key)
    askedLast = { key, table, meaning: likely(table, isLikelyData(table)), isAnswered: !isOpen(table) };
  askedLast.table = table;
  return askedLast;
}
// How many copies of each line there are, where no column says that.
function copiesOfEach() {
  const { value } = field("copies"), copies = Number(value);
  return value !== "" && Number.isInteger(copies) && copies >= 1 ? copies : 1;
}
/** @type {() => Line[]} */
export function linesNow() {
  if (isCsv()) { const { table, meaning } = askedNow(); return linesOf(table, meaning, copiesOfEach()); }
  const lines = field("messages").value.split("\n").filter((line) => line.trim());
  return lines.map((message) => ({ message, text: null, copies: copiesOfEach() }));
}
// Why nothing is given yet: what has to be said first, or "".
export function whyNotYet() {
  if (!isCsv()) return "";
  const { table, meaning, isAnswered } = askedNow();
  if (table.why) return table.why;
  return isAnswered ? whyNoMessage(meaning) : "Say first what the columns are, and then “Use these columns”.";
}

// What the columns are, if that is known or answered.
/** @type {() => import("./csv.mjs").Meaning | null} */
export function columnsMeanNow() {
  const { meaning, isAnswered } = askedNow();
  return isAnswered ? meaning : null;
}
// Answers the question as it was answered before, if that fits the columns.
/** @type {(meaning: import("./csv.mjs").Meaning) => void} */
export function takeMeaning({ isData, roles }) {
  const it = askedNow(), { columns, mayBeData } = it.table;
  if (!canMean(columns, roles) || (isData && !mayBeData)) return;
  Object.assign(it, { meaning: { isData, roles }, isAnswered: !whyNoMessage({ isData, roles }) });
  listChanged();
}

// ---- The question

const WORDS = { [MESSAGE]: "the message", [TEXT]: "text below the symbol", [COPIES]: "how many copies",
  [UNUSED]: "left out" };
/** @type {(it: Asked, k: number) => Node} */
function columnAsked({ table, meaning }, k) {
  const { heading, identifier, example } = table.columns[k], first = meaning.isData ? heading : example;
  const choice = made("select", { ariaLabel: `What column ${k + 1} is` });
  /** @type {(value: string, textContent: string) => HTMLOptionElement} */
  const option = (value, textContent) => made("option", { value, textContent, selected: meaning.roles[k] === value });
  if (identifier && !meaning.isData) choice.append(option(ELEMENT, `(${identifier}) ${nameOfIdentifier(identifier)}`));
  choice.append(...Object.entries(WORDS).map(([value, words]) => option(value, words)));
  choice.addEventListener("change", () => { meaning.roles[k] = choice.value; listChanged(); });
  const name = meaning.isData || !heading ? `column ${k + 1}` : heading;
  return made("li", {}, made("code", { textContent: name }), ` with ${first ? `“${first}”` : "nothing"} is `, choice);
}
/** @type {(table: Table) => string} */
function questionOn({ columns, mayBeData }) {
  const known = "Known headings are GS1 identifiers such as `01`, and `message`, `text` and `qty`.";
  const open = columns.map(({ heading, role }, k) => (role === null ? `\`${heading || `column ${k + 1}`}\`` : ""))
    .filter(Boolean);
  const unknown = open.length ? `It isn’t known what ${open.join(", ")} may be. ` : "";
  return `${mayBeData ? "The first row may have headings or data. " : ""}${unknown}${known}`;
}
function drawQuestion() {
  const it = isCsv() && field("messages").value.trim() ? askedNow() : null, isShown = it !== null && isOpen(it.table);
  $("columns").hidden = !isShown;
  if (!isShown) return;
  const { table, meaning, isAnswered } = it;
  hint("columns-question", withCode(questionOn(table)), !isAnswered);
  $("first-row").hidden = !table.mayBeData;
  field(meaning.isData ? "first-data" : "first-headings").checked = true;
  $("columns-are").replaceChildren(...table.columns.map((_column, k) => columnAsked(it, k)));
  $("columns-taken").hidden = isAnswered;
}
// From here on the list, or how it is to look, is another one: what was said of it before isn't so any more.
export function listChanged() {
  version++;
  hint("sheet-hint", "", false, "messages");
  drawQuestion();
  for (const listener of whoListens) listener();
}
function answerQuestion() {
  const it = askedNow(), why = whyNoMessage(it.meaning);
  it.isAnswered = !why;
  listChanged();
  hint("sheet-hint", why, Boolean(why));
}
const LOOKS = ["kind-typed", "kind-message", "kind-text", "profile-0", "profile-1", "profile-2", "shape", "size",
  "parts", "millimetres", "paper-size", "stock", "label-width", "label-height", "label-text", "lines-as", "copies",
  "quiet", "pixels"];
// A table that is pasted is one: its fields aren't messages with tabs.
function takeTable() {
  if (isCsv() || !isTable(field("messages").value)) { listChanged(); return; }
  field("lines-as").value = "csv";
  listChanged();
  hint("sheet-hint", "A table was pasted, and so the lines are taken as one.");
}
export function wireLines() {
  $("messages").addEventListener("input", takeTable);
  for (const id of LOOKS) $(id).addEventListener("change", listChanged);
  for (const id of ["first-headings", "first-data"])
    $(id).addEventListener("change", () => {
      const it = askedNow();
      it.meaning = likely(it.table, field("first-data").checked);
      listChanged();
    });
  $("columns-taken").addEventListener("click", answerQuestion);
}
