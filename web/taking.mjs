// Taking a symbol away: copied, or saved as SVG or PNG. By default it is the undamaged one. And what it says.
import { plural, shapeName, there } from "./common.mjs";
import { $, field, hint, lengthIn, made } from "./dom.mjs";
import { gridText } from "./grids.mjs";
import { wrongGs1 } from "./elements.mjs";
import { readable, typed } from "./gs1.mjs";
import { pageOf, quietNow } from "./labels.mjs";
import { partOf } from "./contents.mjs";
import { linkNow } from "./link.mjs";
import { settled } from "./order.mjs";
import { tooWide, wirePaper } from "./paper.mjs";
import { pdfOf } from "./pdf.mjs";
import { pixelsOf, pngOf, svgOf } from "./sheets.mjs";
import { VALID, isDamaged, mark } from "./state.mjs";

/** @typedef {import("./common.mjs").Grid} Grid */
/** @typedef {import("./common.mjs").Shape} Shape */
/** @typedef {import("./contents.mjs").Content} Content */
/** @typedef {{ grid: Grid, isDamagedOne: boolean, content: Content | null }} Given */
let toasted = 0; // the timer that ends it
/** @type {(text: string) => void} */
export function toast(text) {
  $("toast").textContent = text;
  $("toast").classList.add("on");
  clearTimeout(toasted);
  toasted = setTimeout(() => $("toast").classList.remove("on"), 2500);
}

// What is read of a symbol, or null.
/** @type {(seen: import("./examine.mjs").Seen) => Content | null} */
export const contentRead = ({ answer: { items, marks = [], head = null } }) => (items ? { items, marks, head } : null);
// What is given: the symbol, and how it is called.
const isDamagedChosen = () => !$("which").hidden && field("which-damaged").checked;
/** @type {(it?: import("./state.mjs").Mark, isChosen?: boolean) => Given} */
export function given(it = mark(), isChosen = isDamagedChosen()) {
  const isDamagedOne = isChosen && isDamaged(it);
  const { rows, columns } = it, grid = isDamagedOne ? { modules: there(it.modules), rows, columns } : it.undamaged();
  return { grid, isDamagedOne, content: it.content ?? contentRead(there(it.seen)) };
}
// Gives the symbol that is entered now, once there is an answer about it.
/** @type {(give: (what: Given) => any) => () => Promise<void>} */
export const giving = (give) => async () => {
  const it = mark(), isChosen = isDamagedChosen();
  await settled(it);
  if (it.stage === VALID) give(given(it, isChosen));
};
// Which part a content is, in the name of a file.
/** @type {(content: Content | null) => string} */
export function partInName(content) {
  const part = content && partOf(content);
  return part ? `-${part.part}-of-${part.parts}` : "";
}
/** @type {(what: Given, ending: string) => string} */
const nameOf = ({ grid, isDamagedOne, content }, ending) =>
  `symbol-${shapeName(grid)}${partInName(content)}${isDamagedOne ? "-damaged" : ""}.${ending}`;

// Whether a text went to the clipboard.
/** @type {(text: string) => Promise<boolean>} */
async function isCopied(text) {
  try {
    await navigator.clipboard.writeText(text);
    return true;
  } catch {
    const area = made("textarea", { value: text }), had = /** @type {HTMLElement} */ (document.activeElement);
    document.body.append(area);
    area.select();
    try { return document.execCommand("copy"); } catch { return false; } finally { area.remove(); had?.focus?.(); }
  }
}
const NOT_COPIED = "This browser doesn’t let the page copy. Save the symbol instead.";
// Copies a text, and says that it is copied, or that it can't be.
/** @type {(text: string, done: string) => Promise<void>} */
export async function copyText(text, done) {
  toast(await isCopied(text) ? done : "This browser doesn’t let the page copy. Select the message instead.");
}
/** @type {(what: Given) => Promise<void>} */
async function copySymbol({ grid, isDamagedOne }) {
  const isDone = await isCopied(gridText(grid));
  toast(isDone ? `Copied: ${isDamagedOne ? "the damaged symbol" : "the symbol"}, a line for each row` : NOT_COPIED);
}
// The message as a person would type it, if it is text; else as it is spelled.
async function copyMessage() {
  const content = contentRead(there(mark().seen));
  if (content) await copyText(typed(content), "Copied: the message");
}
const LONG = 8000; // characters of a link that some programs don't take whole
const LINK_NOT_COPIED = "This browser doesn’t let the page copy. The link is in the address bar.";
async function copyLink() {
  const link = linkNow(), isDone = await isCopied(link);
  const count = link.length.toLocaleString("en");
  const size = link.length > LONG ? `. It has ${count} characters, which not every program takes.` : "";
  toast(isDone ? `Copied: a link that holds what is entered${size}` : LINK_NOT_COPIED);
}
/** @type {(blob: Blob, name: string) => void} */
export function save(blob, name) {
  const link = made("a", { href: URL.createObjectURL(blob), download: name });
  link.click();
  setTimeout(() => URL.revokeObjectURL(link.href), 10000);
}

// ---- Sizes

const LEAST = 0.05, MOST = 20, USUAL_WIDTH = 0.5; // millimetres of a module
const millimetresEntered = () => lengthIn("millimetres", LEAST, MOST);
export const millimetres = () => millimetresEntered() ?? USUAL_WIDTH;
/** @type {(value: number) => string} */
const rounded = (value) => String(+value.toFixed(2));
// The millimetres of a symbol of this shape, with its quiet zone.
/** @type {(shape: Shape) => { width: number, height: number }} */
export function sizeNow(of) {
  const length = (/** @type {number} */ modules) => +rounded((modules + 2 * quietNow()) * millimetres());
  return { width: length(of.columns), height: length(of.rows) };
}
export function drawPrintSize() {
  const { seen } = mark();
  if (millimetresEntered() === null) {
    hint("print-size", `Enter ${LEAST} to ${MOST} mm. ${USUAL_WIDTH} mm is taken.`, true, "millimetres");
    return;
  }
  const { width, height } = seen ? sizeNow(seen) : { width: 0, height: 0 }, why = tooWide(width);
  const quiet = quietNow(), each = pixelsOf(millimetres());
  const pixels = seen ? [seen.columns, seen.rows].map((it) => (it + 2 * quiet) * each).join(" × ") : "";
  $("png-size").textContent = pixels && `PNG: ${pixels} pixels`;
  const words = `${width} × ${height} mm with ${plural(quiet, "module", "modules")} of quiet zone`;
  hint("print-size", seen ? `${words}${why && `. It can’t be printed: ${why}`}` : "", false, "millimetres");
  $("print-size").classList.toggle("bad", Boolean(why));
}
// ---- Files

// The text that stands below a symbol, if it is wanted.
/** @type {(content: Content | null) => string} */
const textNow = (content) => (field("text-below").checked && content ? readable(content) : "");
// A symbol is saved alone, as large as it is; and where it is wrong GS1 data, that is said.
/** @type {(ending: string, type: string, bodyOf: (page: import("./pdf.mjs").Page, what: Given) => any) =>
    (what: Given) => Promise<void>} */
const saving = (ending, type, bodyOf) => async (what) => {
  const { page, why } = pageOf({ grid: what.grid, text: textNow(what.content), number: 1 }, millimetres());
  const name = nameOf(what, ending);
  if (!page) { toast(why ?? ""); return; }
  save(new Blob([await bodyOf(page, what)], { type }), name);
  const wrong = wrongGs1(what.content);
  if (wrong) toast(`${name} is saved. ${wrong}`);
};
export function wireTaking() {
  const actions = { copy: copySymbol, "copy-link": copyLink, "copy-message": copyMessage,
    "save-svg": saving("svg", "image/svg+xml", svgOf), "save-png": saving("png", "image/png", pngOf),
    "save-pdf": saving("pdf", "application/pdf", (page, { grid }) => pdfOf([page], { Grid: gridText(grid) })) };
  for (const [id, action] of Object.entries(actions)) $(id).addEventListener("click", giving(action));
  for (const id of ["millimetres", "quiet", "pixels"]) $(id).addEventListener("input", drawPrintSize);
  wirePaper(drawPrintSize);
}
