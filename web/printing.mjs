// Printing: the symbol at its size with its text, on one page; or a sheet of many messages; or each on a label as large
// as itself.
import { SHORTER, plural, shapeName, shapeWords, there } from "./common.mjs";
import { $, field, hint, made } from "./dom.mjs";
import { wrongGs1 } from "./elements.mjs";
import { copied, entriesNow } from "./entries.mjs";
import { readable } from "./gs1.mjs";
import { partOf } from "./contents.mjs";
import { labelsFile, labelsText } from "./labelfile.mjs";
import { labelOf, pageOf, pagesOf, quietNow } from "./labels.mjs";
import { versionNow } from "./lines.mjs";
import { paperNow, setPage, setPageSize, tooWide } from "./paper.mjs";
import { pdfOf } from "./pdf.mjs";
import { pageDrawn, pngOf, svgOf } from "./sheets.mjs";
import { formNow } from "./source.mjs";
import { VALID, WORKING, mark } from "./state.mjs";
import { given, giving, millimetres, partInName, save, sizeNow, toast } from "./taking.mjs";
import { zipOf } from "./zip.mjs";

const LINE = 5.5, CHARACTER = 2.5; // millimetres of the text below a symbol, a little more than they are
let isSheet = false;

/** @typedef {import("./common.mjs").Grid} Grid */
// A symbol with what stands below it; on a label nothing does.
/** @type {(grid: Grid, texts: Node[]) => HTMLElement} */
function figure(grid, texts) {
  const { page } = pageOf({ grid, text: "", number: 1 }, millimetres());
  return made("figure", {}, pageDrawn(there(page)), ...(paperNow() ? texts : []));
}
/** @type {(className: string, figures: Node[], width: number, height: number) => void} */
function layOut(className, figures, width, height) {
  $("paper").className = paperNow() ? className : "labels";
  setPage(width, height);
  $("paper").replaceChildren(...figures);
}
/** @type {(textContent: string) => HTMLElement} */
const captionOf = (textContent) => made("figcaption", { textContent });
/** @type {(textContent: string) => HTMLElement} */
const noteOf = (textContent) => made("p", { textContent });

// ---- One symbol

// A text cut to what has room below a symbol that is so many millimetres high.
/** @type {(text: string, height: number) => string} */
function fitted(text, height) {
  const { across, down } = paperNow() ?? { across: 0, down: 0 };
  const lines = Math.floor((down - height - 4 * LINE) / LINE), most = lines * Math.floor(across / CHARACTER);
  const over = text.length - most;
  return over > 0 ? `${text.slice(0, most)}… and ${plural(over, "character", "characters")} more` : text;
}
function whyNotPrinted() {
  const it = mark();
  if (it.stage === WORKING) return "What is entered isn’t written or read yet.";
  if (it.stage !== VALID) return "There is no symbol to print: what is entered can’t be taken.";
  const { width } = sizeNow(it), why = tooWide(width);
  return why && `A symbol that is ${width} mm wide isn’t printed: ${why}`;
}
function fillPaper() {
  if (isSheet) return;
  const why = whyNotPrinted();
  if (why) { layOut("one", [noteOf(why)], 100, 100); return; }
  const { grid, isDamagedOne, content } = given(), { width, height } = sizeNow(grid);
  const damage = isDamagedOne ? "; damaged" : "", wrong = wrongGs1(content);
  const part = content && partOf(content), which = part ? `Part ${part.part} of ${part.parts}. ` : "";
  const size = `${which}${shapeWords(grid)} modules of ${millimetres()} mm, ${quietNow()} of quiet zone${damage}`;
  const text = content ? fitted(readable(content), height) || "the empty message" : "not read";
  const texts = [captionOf(text), noteOf(size), ...(wrong ? [noteOf(wrong)] : [])];
  layOut("one", [figure(grid, texts)], width, height);
}
function printOne() {
  const why = whyNotPrinted();
  if (why) toast(why); else window.print();
}

// ---- Many symbols

/** @typedef {import("./entries.mjs").Entry} Entry */
/** @typedef {import("./pdf.mjs").Page} Page */
// Each page on one of its own; a browser's pages are all as large as the largest of them.
/** @type {(entries: Entry[], pages: Page[]) => void} */
function layOutPages(_, pages) {
  const most = (/** @type {"width" | "height"} */ side) => Math.max(...pages.map((page) => page[side]));
  $("paper").className = "sheets";
  setPageSize(most("width"), most("height"));
  $("paper").replaceChildren(...pages.map(pageDrawn));
}
// What is given, in words: how many symbols, and how many rows want no copy.
/** @type {(count: number, none: number, where: string, form: number) => string} */
function givenWords(count, none, where, form) {
  const how = form === SHORTER ? ", stored as bytes where that is smaller" : "";
  const left = none ? ` ${plural(none, "row wants", "rows want")} 0 copies.` : "";
  return `${plural(count, "symbol is", "symbols are")} ${where}${how}.${left}`;
}
// Does something with all symbols and their pages, and says how many there are, or why not; unless the list is another
// one by then.
/** @type {(act: (entries: Entry[], pages: Page[]) => any, where: string) => any} */
const withAll = (act, where) => async () => {
  const own = versionNow(), form = formNow(), { why, entries: all = [] } = await entriesNow();
  const entries = copied(all), laid = why ? { why } : pagesOf(entries, millimetres());
  const fault = laid.why || await act(entries, there(laid.pages));
  const none = new Set(all.filter(({ copies }) => !copies).map(({ number }) => number)).size;
  const said = fault || givenWords(entries.length, none, where, form);
  if (own === versionNow()) hint("sheet-hint", said, Boolean(fault), "messages");
  return !fault;
};
const layAll = withAll(layOutPages, "on the sheet");
async function printSheet() {
  if (!await layAll()) return;
  isSheet = true;
  window.print();
}
/** @type {(entry: Entry, ending: string, copy: number) => string} */
const fileName = ({ number, content, grid, copies }, ending, copy) => `${String(number).padStart(3, "0")}`
  + `${partInName(content)}-symbol-${shapeName(there(grid))}${copies > 1 ? `-copy-${copy}` : ""}.${ending}`;
// Saves a file for each label, in one archive.
/** @type {(ending: string, bytesOf: (page: Page) => Uint8Array | Promise<Uint8Array>) => any} */
const zipping = (ending, bytesOf) => withAll(async (entries) => {
  const files = [];
  for (const entry of new Set(entries)) {
    const { why, page } = labelOf(entry, millimetres());
    if (!page) return why;
    const bytes = await bytesOf(page);
    for (let copy = 1; copy <= entry.copies; copy++) files.push({ name: fileName(entry, ending, copy), bytes });
  }
  save(zipOf([...files, labelsFile()]), `symbols-${ending}.zip`);
  return "";
}, "in the archive");
const savePdf = withAll((_, pages) => { save(pdfOf(pages, { Labels: labelsText() }), "symbols.pdf"); }, "in the PDF");
export function wirePrinting() {
  addEventListener("beforeprint", fillPaper);
  addEventListener("afterprint", () => { isSheet = false; });
  $("print").addEventListener("click", giving(printOne));
  $("print-sheet").addEventListener("click", printSheet);
  $("stock").addEventListener("change", () => { $("own-size").hidden = field("stock").value !== "own"; });
  $("many-pdf").addEventListener("click", savePdf);
  $("save-list").addEventListener("click", () => {
    save(new Blob([labelsText()], { type: "application/json" }), "labels.json");
    hint("sheet-hint", "The list is saved, with how its labels look. It can be opened again.");
  });
  $("many-png").addEventListener("click", zipping("png", pngOf));
  $("many-svg").addEventListener("click",
    zipping("svg", (page) => new TextEncoder().encode(svgOf(page))));
}
