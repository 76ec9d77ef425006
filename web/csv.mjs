// Lines of a file with one column a field. Its first row has headings, which say what the columns are: GS1 identifiers,
// whose fields make an element string, or the message; the text that stands below the symbol; the number of copies. The
// headings are those of the library's table, which is packed into the page. What a heading leaves open is asked.
import { isIdentifier } from "./gs1.mjs";
import { knownAs } from "./headings.mjs";

/** @typedef {{ message: string, text: string | null, copies: number, why?: string }} Line */
/** @typedef {{ heading: string, identifier: string, role: string | null, example: string }} Column its role is null if
    the heading doesn't tell it */
/** @typedef {{ rows: string[][], columns: Column[], mayBeData: boolean, why: string }} Table with its first row, which
    may have data instead of headings; and why its rows can't be told, if so */
/** @typedef {{ isData: boolean, roles: string[] }} Meaning whether the first row has data, and what the columns are */
const SEPARATORS = [";", "\t", ","];
export const ELEMENT = "element", MESSAGE = "message", TEXT = "text", COPIES = "copies", UNUSED = "left out";
// The headings of a list of what was found that the page saved: what was read is the message.
export const FOUND = ["number", "message", "modules", "not read"], PICTURE = "picture";
/** @type {Record<string, string>} of the table's words */
const ROLES = { message: MESSAGE, text: TEXT, copies: COPIES, "-": UNUSED };
// What separates fields: as the first line of some files says, or what the headings have of it.
const SAID = /^sep=(.)\r?\n/i;
/** @type {(text: string) => string} */
function separatorOf(text) {
  const [first] = text.trimStart().split("\n", 1), plain = first.replace(/"[^"]*"/g, "");
  return SAID.exec(text)?.[1] ?? SEPARATORS.find((each) => plain.includes(each)) ?? ",";
}
// The rows of a CSV file. A field in quotation marks may hold separators, line ends and, doubled, quotation marks. If
// one isn't closed, the line on which it begins.
/** @type {(text: string) => { rows: string[][], unclosed: number | null }} */
export function rowsOf(text) {
  const separator = separatorOf(text), from = SAID.exec(text)?.[0].length ?? 0, rows = [[""]];
  let isQuoted = false, line = from ? 2 : 1, begun = 1;
  for (let at = from; at < text.length; at++) {
    const c = text[at], row = rows[rows.length - 1], last = row.length - 1;
    if (c === "\n") line++;
    if (isQuoted && c === '"' && text[at + 1] === '"') { row[last] += c; at++; }
    else if (c === '"' && (isQuoted || row[last] === "")) [isQuoted, begun] = [!isQuoted, line];
    else if (isQuoted) row[last] += c;
    else if (c === separator) row.push("");
    else if (c === "\n") rows.push([""]);
    else if (c !== "\r") row[last] += c;
  }
  return { rows: rows.filter((row) => row.some((field) => field.trim())), unclosed: isQuoted ? begun : null };
}
// Whether a text is a part of a table, as it is copied from one: its lines have tabs, each as many.
/** @type {(text: string) => boolean} */
export function isTable(text) {
  const counts = text.split("\n").filter((line) => line.trim()).map((line) => line.split("\t").length);
  return counts.length > 0 && counts[0] > 1 && counts.every((count) => count === counts[0]);
}

// ---- What the columns are

const DIGITS = /^\d{2,4}$/;
// The identifier that a heading is, by its digits or its name, or "".
/** @type {(heading: string) => string} */
function identifierOf(heading) {
  const meaning = knownAs(heading) ?? "";
  return isIdentifier(meaning) ? meaning : "";
}
/** @type {(heading: string) => string | null} */
const roleOf = (heading) => (identifierOf(heading) ? ELEMENT : ROLES[knownAs(heading) ?? ""] ?? null);
// Whether a heading is one for sure: a word of the table, or digits in brackets.
/** @type {(heading: string) => boolean} */
const isSure = (heading) => knownAs(heading) !== null && !DIGITS.test(heading);
/** @type {(headings: string[]) => boolean} */
const isOfFound = (headings) => headings.filter((heading) => heading !== PICTURE).join() === FOUND.join();
/** @type {(rows: string[][], k: number) => string[]} */
const columnOf = (rows, k) => rows.map((row) => (row[k] ?? "").trim());
// The columns by their headings. What comes a second time isn't known, nor a message beside identifiers.
/** @type {(headings: string[], rows: string[][]) => Column[]} */
function columnsOf(headings, rows) {
  const identifiers = headings.map(identifierOf), roles = headings.map(roleOf);
  /** @type {(k: number) => boolean} */
  const isKnown = (k) => (roles[k] === UNUSED ? true : roles[k] === ELEMENT ? identifiers.indexOf(identifiers[k]) === k
    : roles.indexOf(roles[k]) === k && !(roles[k] === MESSAGE && roles.includes(ELEMENT)));
  return headings.map((heading, k) => {
    const example = columnOf(rows, k).find(Boolean) ?? "", isUnused = roles[k] === UNUSED || (!heading && !example);
    return { heading, identifier: identifiers[k], example, role: isUnused ? UNUSED : isKnown(k) ? roles[k] : null };
  });
}
// Whether the first row may as well have data: none of its words is a heading for sure, and a number is none for sure
// where numbers of the same kind stand below it.
/** @type {(columns: Column[], rows: string[][]) => boolean} */
function mayBeData(columns, rows) {
  if (columns.some(({ heading }) => isSure(heading))) return false;
  return columns.some(({ role }, k) => role === null || columnOf(rows, k).some((field) => DIGITS.test(field)));
}

/** @type {(text: string) => Table} */
export function tableOf(text) {
  const { rows: all, unclosed } = rowsOf(text);
  const at = isOfFound(all[0] ?? []) ? all[0].indexOf(FOUND[1]) : -1;
  const isMeant = (/** @type {string[]} */ row) => at < 0 || Boolean(row[at]);
  const rows = all.filter(isMeant), [first = [], ...others] = rows;
  const count = rows.reduce((most, row) => Math.max(most, row.length), 0);
  const headings = Array.from({ length: count }, (_, k) => (first[k] ?? "").trim());
  const columns = columnsOf(headings, others);
  const why = unclosed === null ? "" : `Line ${unclosed}: a quotation mark begins a field there and none ends it.`;
  return { rows, columns, mayBeData: mayBeData(columns, others), why };
}
// Whether it has to be asked what the columns are.
/** @type {(table: Table) => boolean} */
export const isOpen = ({ columns, mayBeData: may }) => may || columns.some(({ role }) => role === null);
// Whether a first row that may have data most likely has: headings seldom have digits.
/** @type {(table: Table) => boolean} */
export const isLikelyData = ({ columns, mayBeData: may }) => may && columns.some(({ heading }) => /\d/.test(heading));
// What the columns are as far as it is known; else what they most likely are: the first that isn't known is the
// message, where nothing else makes one.
/** @type {(table: Table, isData: boolean) => Meaning} */
export function likely({ columns }, isData) {
  const known = columns.map(({ role }) => (isData ? null : role));
  const hasMessage = known.includes(ELEMENT) || known.includes(MESSAGE), first = hasMessage ? -1 : known.indexOf(null);
  return { isData, roles: known.map((role, k) => role ?? (k === first ? MESSAGE : UNUSED)) };
}
// Whether columns can be all of this.
/** @type {(columns: Column[], roles: any) => boolean} */
export const canMean = (columns, roles) => Array.isArray(roles) && roles.length === columns.length
  && roles.every((role, k) =>
    [MESSAGE, TEXT, COPIES, UNUSED].includes(role) || (role === ELEMENT && columns[k].identifier !== ""));
// Why columns that mean this make no symbols, or "".
/** @type {(meaning: Meaning) => string} */
export function whyNoMessage({ roles }) {
  const count = (/** @type {string} */ role) => roles.filter((each) => each === role).length;
  if (!count(ELEMENT) && count(MESSAGE) !== 1) return "One column has to be the message.";
  if (count(ELEMENT) && count(MESSAGE)) return "Identifiers make the message, so no other column can be it.";
  if (count(TEXT) > 1) return "Only one column can stand below the symbol.";
  return count(COPIES) > 1 ? "Only one column can say how many copies there are." : "";
}

// ---- The lines

// A field without the apostrophe that a spreadsheet has in front of a text that else would be a formula.
/** @type {(field: string) => string} */
const plainField = (field) => (/^'+[=+@\t\r-]/.test(field) ? field.slice(1) : field);
/** @type {(field: string) => string} */
const spelledValue = (field) => field.trim().replace(/[\\]/g, "\\\\").replace(/[(]/g, "\\(");
const MOST_COPIES = 9999;
/** @type {(field: string) => { copies: number, why?: string }} */
function copiesOf(field) {
  const digits = field.trim() || "1", copies = Number(digits);
  const isOne = /^\d+$/.test(digits) && copies <= MOST_COPIES;
  return isOne ? { copies } : { copies: 1, why: `${digits} is no number of copies` };
}
// The lines of a table whose columns mean this; with so many copies of each, where no column says how many.
/** @type {(table: Table, meaning: Meaning, each: number) => Line[]} */
export function linesOf({ rows, columns }, { isData, roles }, each) {
  const [message, text, copies] = [MESSAGE, TEXT, COPIES].map((role) => roles.indexOf(role));
  const element = (/** @type {string} */ field, /** @type {number} */ k) =>
    (roles[k] === ELEMENT && field.trim() ? `(${columns[k].identifier})${spelledValue(field)}` : "");
  return (isData ? rows : rows.slice(1)).map((row) => {
    const own = message < 0 ? row.map(element).join("") : plainField(row[message] ?? "");
    const below = text < 0 ? null : plainField(row[text] ?? "");
    return { message: own, text: below, ...(copies < 0 ? { copies: each } : copiesOf(row[copies] ?? "")) };
  });
}
