// Drawing codewords, and telling about the one that is pointed at.
import { BIT, BORDER_DARK, BORDER_LIGHT, blockOf, there } from "./common.mjs";
import { $, folded, made } from "./dom.mjs";
import { mapOf, mark } from "./state.mjs";
import { isWrong } from "./symbol.mjs";

/** @typedef {import("./examine.mjs").Seen} Seen */
const CELLS_WITH_MEANINGS = 72;
const STATES = ["", "corrected", "beyond"];

// What a screen reader says of a codeword.
/** @type {(seen: Seen, w: number) => string} */
function cellName(seen, w) {
  const { size, held, mended, states, isErased, told } = seen, what = told?.[w] ? `, ${told[w].text}` : "";
  const corrected = states[w] === 1 ? `, corrected to ${mended[w]}` : "", doubt = isErased[w] ? ", doubtful" : "";
  const state = `${doubt}${states[w] === 2 ? ", in a block beyond correction" : corrected}`;
  return `${w < size.data ? "data" : "check"} codeword ${w + 1}: ${held[w]}${state}${what}`;
}
/** @type {(node: Element, seen: Seen, w: number) => void} */
function drawCell(node, seen, w) {
  const { size, held, mended, states, isErased, told } = seen, all = held.length, name = cellName(seen, w);
  const className = [w >= size.data && "check", STATES[states[w]], isErased[w] && "erased"].filter(Boolean).join(" ");
  const meaning = states[w] === 1 ? `→${mended[w]}` : (told?.[w]?.brief ?? "");
  const below = all > CELLS_WITH_MEANINGS ? null : meaning;
  if (node.className !== className) node.className = className;
  if (node.getAttribute("aria-label") === name && node.firstChild) return;
  node.setAttribute("aria-label", name);
  node.replaceChildren(made(states[w] === 1 ? "s" : "span", { textContent: held[w] }));
  if (below !== null) node.append(made("small", { textContent: below }));
}
// Codewords are drawn where they can be seen.
export function drawWords() {
  const { seen, word } = mark(), box = $("words"), all = seen && folded("details").open ? seen.held.length : 0;
  if (box.childElementCount !== all) {
    box.textContent = "";
    for (let w = 0; w < all; w++) box.append(made("b", { id: `word-${w}`, role: "option" }));
    box.classList.toggle("few", all <= 40);
  }
  for (let w = 0; w < all; w++) {
    const node = box.children[w], isAt = String(w === word);
    drawCell(node, there(seen), w);
    if (node.getAttribute("aria-selected") !== isAt) node.setAttribute("aria-selected", isAt);
  }
  if (word === null || !all) box.removeAttribute("aria-activedescendant");
  else box.setAttribute("aria-activedescendant", `word-${word}`);
  $("count").textContent = seen ? `${seen.size.data} data, then ${seen.size.check} check (dashed). Point at one.` : "";
}

export function wireWords() { $("details").addEventListener("toggle", drawWords); }

// ---- What is told of the module or codeword pointed at

/** @type {(value: number) => string} */
export const bitsOf = (value) => value.toString(2).padStart(8, "0");
// The bits of a value, of which those that differ from another's are marked.
/** @type {(value: number, other: number) => (Node | string)[]} */
const bitsAgainst = (value, other) => Array.from(bitsOf(value), (bit, k) =>
  (bit === bitsOf(other)[k] ? bit : made("u", { textContent: bit })));
/** @type {(kind: number) => boolean} */
const isBorder = (kind) => kind === BORDER_LIGHT || kind === BORDER_DARK;
/** @type {(k: number, shape: import("./common.mjs").Shape) => string} */
export const placeOf = (k, { columns }) => `Row ${Math.floor(k / columns) + 1}, column ${(k % columns) + 1}`;
/** @type {(seen: Seen, k: number) => boolean} */
const isDoubtful = ({ doubtful }, k) => Boolean(doubtful?.[k]);
/** @type {(text: string) => Node} */
export const bold = (text) => made("b", { textContent: text });

/** @type {(seen: Seen, k: number) => (Node | string)[]} */
function aboutModule(seen, k) {
  const { kind } = mapOf(seen), what = isBorder(kind[k]) ? "the border, which shows where the modules lie"
    : "the fixed square in the corner, which holds no codeword and isn’t looked at";
  const wrong = isWrong(seen, seen.modules, k) ? ` It should be ${kind[k] === BORDER_DARK ? "dark" : "light"}.` : "";
  const doubt = isDoubtful(seen, k) ? " It is doubtful, and so isn’t counted." : "";
  return [bold(placeOf(k, seen)), ` belongs to ${what}.${wrong}${doubt}`];
}
/** @type {(seen: Seen, w: number) => (Node | string)[]} */
function aboutWord({ size, dealing, held, mended, states, isErased, told }, w) {
  const what = w < size.data ? "data" : "check";
  const block = size.blocks > 1 ? `, block ${blockOf(size, dealing, w) + 1}` : "";
  const value = (/** @type {number} */ one, /** @type {number} */ other) =>
    [bold(String(one)), ", ", made("span", { className: "bits" }, ...bitsAgainst(one, other))];
  const mending = states[w] === 1 ? [", and is corrected to ", ...value(mended[w], held[w])] : [];
  const beyond = states[w] === 2 ? "; its block is beyond correction" : "";
  const doubt = isErased[w] ? " It is doubtful: the reader takes it for unknown, which costs its block one check "
    + "codeword, and not two." : "";
  const meaning = w < size.data && told ? ` It stands for ${told[w].text}.` : "";
  return [bold(`Codeword ${w + 1}`), ` of ${held.length}: ${what}${block}. It is `, ...value(held[w], mended[w]),
    ...mending, `${beyond}.${doubt}${meaning}`];
}
const POINT = "Point at a codeword, or in Learn at a module: its eight modules are shown in the symbol, with bit 1, "
  + "the highest, to bit 8.";
export function drawAbout() {
  const { seen, module: k, word: w } = mark();
  const about = !seen ? [] : w !== null ? aboutWord(seen, w) : k !== null ? aboutModule(seen, k) : [POINT];
  $("about").replaceChildren(...about);
}
/** @type {(seen: Seen, k: number) => string} */
export function spokenModule(seen, k) {
  const map = mapOf(seen), kind = map.kind[k], fixed = isBorder(kind) ? "border" : "fixed square";
  const what = kind === BIT ? `codeword ${map.word[k] + 1}, bit ${map.bit[k]}` : fixed;
  const wrong = isWrong(seen, seen.modules, k) ? ", wrong" : "", doubt = isDoubtful(seen, k) ? ", doubtful" : "";
  return `${placeOf(k, seen)}: ${seen.modules[k] ? "dark" : "light"}, ${what}${wrong}${doubt}`;
}
