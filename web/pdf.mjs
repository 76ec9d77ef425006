// A PDF of pages in millimetres, on which symbols are drawn as rectangles of exact size, with texts below them that can
// be searched and copied: their font has the outlines of their letters, or they stand unseen where dots are drawn.
import { placesOf } from "./captions.mjs";
import { there } from "./common.mjs";
import { WIDTH, hasLetter, outlineOf } from "./font.mjs";
import { DOT, dotsOf } from "./scripts.mjs";
import { QUIET, runsOf, withQuiet } from "./symbol.mjs";

/** @typedef {import("./common.mjs").Grid} Grid */
/** @typedef {{ grid: Grid, x: number, y: number, module: number, caption: import("./captions.mjs").Caption,
    width: number, below: number }} Placed a symbol, with the upper left corner of its quiet zone, in millimetres from
    that of the page; a module's width; the text below, how wide its lines may be, and how far below that zone it is */
/** @typedef {{ width: number, height: number, placed: Placed[] }} Page */
const MILLIMETRES = 25.4 / 72; // of a point

/** @type {(value: number) => string} */
const number = (value) => String(+value.toFixed(4));
// The rectangles of a symbol, runs of dark modules along its rows; y grows upwards.
/** @type {(placed: Placed, height: number) => string} */
function symbolDrawn({ grid, x, y, module }, height) {
  const lines = runsOf(grid, (k) => grid.modules[k]).map(([r, c, length]) => {
    const place = [x + (c + QUIET) * module, height - y - (r + QUIET + 1) * module, length * module, module];
    return `${place.map(number).join(" ")} re`;
  });
  return `${lines.join("\n")}\nf\n`;
}

// ---- Letters

const MOST_LETTERS = 255, EM = 1000; // letters of a font; units of its height
/** @type {(value: number, digits: number) => string} */
const hexOf = (value, digits) => value.toString(16).toUpperCase().padStart(digits, "0");
// The letters that stand on pages, in fonts of so many, each with a code of two hexadecimal digits.
class Letters {
  /** @type {string[]} */
  all;
  /** @param {Page[]} pages */
  constructor(pages) {
    const lines = pages.flatMap(({ placed }) => placed.flatMap(({ caption }) => caption.lines));
    this.all = [...new Set(lines.flatMap((line) => Array.from(line)))];
    /** @type {Map<string, number>} */
    this.places = new Map(this.all.map((letter, k) => [letter, k]));
  }
  // A line as it is shown, in pieces of one font each.
  /** @type {(line: string, size: number) => string} */
  shown(line, size) {
    let font = -1, codes = "", words = "";
    const end = () => { if (codes) words += `<${codes}> Tj\n`; codes = ""; };
    for (const letter of line) {
      const place = there(this.places.get(letter)), own = Math.floor(place / MOST_LETTERS);
      if (own !== font) { end(); font = own; words += `/F${font} ${number(size)} Tf\n`; }
      codes += hexOf((place % MOST_LETTERS) + 1, 2);
    }
    end();
    return words;
  }
  // Adds the fonts, and says how pages name them.
  /** @type {(add: (body: string) => number) => string} */
  addTo(add) {
    const fonts = [];
    for (let k = 0; k < this.all.length; k += MOST_LETTERS)
      fonts.push(`/F${fonts.length} ${addFont(this.all.slice(k, k + MOST_LETTERS), add)} 0 R`);
    return `<< /Font << ${fonts.join(" ")} >> >>`;
  }
}
/** @type {(body: string, about?: string) => string} */
const streamOf = (body, about = "") => `<<${about} /Length ${body.length} >>\nstream\n${body}endstream`;
// A letter's outline, in which curves have two corners that they bend to.
/** @type {(letter: string) => string} */
function outlineDrawn(letter) {
  /** @type {(...values: number[]) => string} */
  const units = (...values) => values.map((value) => String(+(value * EM).toFixed(1))).join(" ");
  let [x, y] = [0, 0], drawn = `${units(WIDTH)} 0 -300 -400 1000 1200 d1\n`;
  for (const { word, at } of letter === " " || !hasLetter(letter) ? [] : outlineOf(letter)) {
    const [toX, toY] = at.slice(-2);
    if (word === "M" || word === "L") drawn += `${units(...at)} ${word.toLowerCase()}\n`;
    else if (word === "Z") drawn += "h\n";
    else {
      /** @type {(from: number, bend: number) => number} */
      const towards = (from, bend) => from + ((bend - from) * 2) / 3;
      const [bendX, bendY] = at;
      const bends = [towards(x, bendX), towards(y, bendY), towards(toX, bendX), towards(toY, bendY)];
      drawn += `${units(...bends, toX, toY)} c\n`;
    }
    if (at.length) [x, y] = [toX, toY];
  }
  return `${drawn}f\n`;
}
const TO_UNICODE = "/CIDInit /ProcSet findresource begin\n12 dict begin\nbegincmap\n/CMapName /Letters def\n"
  + "/CMapType 2 def\n1 begincodespacerange\n<00> <FF>\nendcodespacerange\n";
/** @type {(letter: string) => string} */
const utf16Of = (letter) => Array.from({ length: letter.length }, (_, k) => hexOf(letter.charCodeAt(k), 4)).join("");
// A font of letters, by their codes from 1 on.
/** @type {(letters: string[], add: (body: string) => number) => number} */
function addFont(letters, add) {
  const names = letters.map((_, k) => `/l${k + 1}`);
  const outlines = letters.map((letter, k) => `${names[k]} ${add(streamOf(outlineDrawn(letter)))} 0 R`);
  const lines = letters.map((letter, k) => `1 beginbfchar\n<${hexOf(k + 1, 2)}> <${utf16Of(letter)}>\nendbfchar\n`);
  const told = add(streamOf(`${TO_UNICODE}${lines.join("")}endcmap\nend\nend\n`));
  return add(`<< /Type /Font /Subtype /Type3 /FontBBox [0 0 0 0] /FontMatrix [${1 / EM} 0 0 ${1 / EM} 0 0] `
    + `/CharProcs << ${outlines.join(" ")} >> /Encoding << /Type /Encoding /Differences [1 ${names.join(" ")}] >> `
    + `/FirstChar 1 /LastChar ${letters.length} /Widths [${letters.map(() => number(WIDTH * EM)).join(" ")}] `
    + `/Resources << >> /ToUnicode ${told} 0 R >>`);
}
// A text below a symbol, in the middle.
/** @type {(placed: Placed, height: number, letters: Letters) => string} */
function textDrawn({ grid, x, y, module, caption, width, below: gap }, height, letters) {
  const { rows, columns } = withQuiet(grid), left = x + (columns * module - width) / 2, top = y + rows * module + gap;
  return placesOf(caption, width).map(({ line, x: over, y: below }) => {
    const at = `${number(left + over)} ${number(height - top - below)}`, shown = letters.shown(line, caption.size);
    if (!caption.isDrawn) return `BT ${at} Td\n${shown}ET\n`;
    const dots = dotsOf(line, caption.size).map((run) => `${run.join(" ")} 1 re`).join(" ");
    return `q\nBT 3 Tr ${at} Td\n${shown}ET\n${DOT_WIDE} 0 0 ${DOT_WIDE} ${at} cm\n${dots} f*\nQ\n`;
  }).join("");
}
const DOT_WIDE = DOT.toFixed(6);

// ---- The file

/** @type {(text: string) => string} */
const hexOfText = (text) => Array.from(new TextEncoder().encode(text), (byte) => hexOf(byte, 2).toLowerCase()).join("");
// The text that a PDF of the page keeps by a name, or "".
/** @type {(pdf: Uint8Array, name: string) => string} */
export function keptIn(pdf, name) {
  const found = new RegExp(`/${name} <([0-9a-f]*)>`).exec(new TextDecoder("latin1").decode(pdf));
  return new TextDecoder().decode(Uint8Array.from(found?.[1].match(/../g) ?? [], (pair) => parseInt(pair, 16)));
}
/** @type {(page: Page, letters: Letters) => string} */
function contentOf({ height, placed }, letters) {
  const drawn = placed.map((each) => symbolDrawn(each, height) + textDrawn(each, height, letters));
  return `${number(1 / MILLIMETRES)} 0 0 ${number(1 / MILLIMETRES)} 0 0 cm\n0 0 0 rg\n${drawn.join("")}`;
}
// Of pages, with texts that are kept in its catalog by their names, which no reader shows.
/** @type {(pages: Page[], kept: Record<string, string>) => Blob} */
export function pdfOf(pages, kept) {
  const known = Object.entries(kept).map(([name, text]) => ` /${name} <${hexOfText(text)}>`).join("");
  const objects = [`<< /Type /Catalog /Pages 2 0 R${known} >>`, ""], letters = new Letters(pages);
  const add = (/** @type {string} */ body) => objects.push(body), fonts = letters.addTo(add);
  const kids = pages.map((page) => {
    const box = `0 0 ${number(page.width / MILLIMETRES)} ${number(page.height / MILLIMETRES)}`;
    const content = add(streamOf(contentOf(page, letters)));
    return add(`<< /Type /Page /Parent 2 0 R /MediaBox [${box}] /Resources ${fonts} /Contents ${content} 0 R >>`);
  });
  objects[1] = `<< /Type /Pages /Kids [${kids.map((kid) => `${kid} 0 R`).join(" ")}] /Count ${pages.length} >>`;
  let text = "%PDF-1.4\n";
  const places = [];
  for (const [k, body] of objects.entries()) {
    places.push(text.length);
    text += `${k + 1} 0 obj\n${body}\nendobj\n`;
  }
  const table = places.map((at) => `${String(at).padStart(10, "0")} 00000 n \n`).join("");
  const end = `trailer\n<< /Size ${places.length + 1} /Root 1 0 R >>\nstartxref\n${text.length}\n%%EOF\n`;
  const all = `${text}xref\n0 ${places.length + 1}\n0000000000 65535 f \n${table}${end}`;
  return new Blob([new TextEncoder().encode(all)], { type: "application/pdf" }); // of ASCII alone
}
