// The lesson: from the message to codewords, blocks, check codewords and places, each with the numbers of the symbol at
// hand.
import { bitsOf, bold } from "./cells.mjs";
import { nameOfEci } from "./charsets.mjs";
import { BEYOND, blockOf, plural, shapeWords, there } from "./common.mjs";
import { $, fieldOf, folded, made, one, setUsable, shape, whenUsed } from "./dom.mjs";
import { partOf } from "./contents.mjs";
import { isPlain, spelledItem } from "./messages.mjs";
import { VALID, mapOf, mark } from "./state.mjs";
import { numbersDrawn, runs, viewBox } from "./symbol.mjs";

/** @typedef {import("./examine.mjs").Seen} Seen */
/** @typedef {(Node | string)[]} Content */
const SHOWN = 120; // entries of a list before it is cut
/** @type {(count: number) => Node} */
const more = (count) => made("span", { className: "hint", textContent: ` and ${count} more` });
/** @type {(list: Node[]) => Content} */
const cut = (list) => [...list.slice(0, SHOWN), ...(list.length > SHOWN ? [more(list.length - SHOWN)] : [])];
/** @type {(value: string | number, below: string, kind?: string) => Node} */
const chip = (value, below, kind = "") =>
  made("b", { className: `chip ${kind}` }, String(value), made("small", { textContent: below }));
/** @type {(...content: (Node | string)[]) => Node} */
const paragraph = (...content) => made("p", {}, ...content);
/** @type {(list: Node[]) => Node} */
const chips = (list) => made("div", { className: "chips" }, ...(list.length ? cut(list) : ["none"]));

/** @type {(seen: Seen) => Content} */
function messageStep({ answer }) {
  const { items = [], marks = [] } = answer;
  const below = (/** @type {number} */ item) => (isPlain(item) ? String.fromCharCode(item) : spelledItem(item));
  const list = items.map((item) => chip(item === 256 ? "FNC1" : item, below(item)));
  for (const { place, number } of [...marks].reverse())
    list.splice(place, 0, chip(`ECI ${number}`, nameOfEci(number), "soft"));
  const count = plural(items.length, "character", "characters");
  return [paragraph(`The message has ${count}: each is a number of 0 to 255, or the function character FNC1.`
    + `${marks.length ? ABOUT_MARKS : ""}${aboutHead(answer)}`), chips(list)];
}
const ABOUT_MARKS = " An ECI says in which charset the characters behind it are.";
/** @type {(answer: import("./library.mjs").Answer) => string} */
function aboutHead({ head }) {
  const part = partOf({ head });
  if (part) return ` It is part ${part.part} of ${part.parts} of what several symbols say together, whose file has the `
    + `numbers ${part.file.join(" and ")}.`;
  return head ? " It is an instruction to the reader." : "";
}
/** @type {(seen: Seen) => Content} */
function codewordStep({ answer, told: given, held, size }) {
  const kindOf = (/** @type {string} */ brief) => (brief === "pad" || brief === "end" ? "soft" : "");
  const told = there(given), list = told.map(({ brief }, w) => chip(held[w], brief || "·", kindOf(brief)));
  const end = told.findIndex(({ brief }) => brief === "end"), count = end < 0 ? told.length : end;
  const pads = size.data - count, follow = plural(pads, "pad follows", "pads follow");
  const rest = pads === 0 ? `They fill the ${size.data} of this size.`
    : `This size has room for ${size.data}, so that ${follow}: the first is 129, and to each further one a number is `
      + "added that depends on its place.";
  const sets = Object.keys(ABOUT_SETS).filter((name) => told.some(({ text }) => text === `a latch to ${name}`));
  return [paragraph(`They become ${plural(count, "data codeword", "data codewords")} of eight bits. `
    + "In ASCII encodation a character is its number and 1, two digits together are their value and 130, and FNC1 is "
    + `232; latches change to another encodation.${answer.marks?.length ? ABOUT_DESIGNATORS : ""} ${rest}`),
  ...sets.map((name) => paragraph(bold(name), ABOUT_SETS[name])), chips(list)];
}
// What the encodations besides ASCII are, where one of them is used.
/** @type {Record<string, string>} */
const ABOUT_SETS = {
  C40: " begins with 230: two codewords hold three values a, b and c of 0 to 39, as 1600·a + 40·b + c + 1. Digits, "
    + "capitals and the space have one value each; other characters a shift and a value. 254 leads back to ASCII.",
  Text: " begins with 239 and is like C40, with small letters for capitals.",
  X12: " begins with 238: two codewords hold three values, as in C40, of capitals, digits, the space, * and >, and the "
    + "line end of ANSI X12.",
  EDIFACT: " begins with 240: three codewords hold four characters of six bits each, as their numbers less 64 where "
    + "these are at least 64. The value 31 leads back to ASCII.",
  "Base 256": " begins with 231 and a length: bytes follow as they are, to each of which a number is added that "
    + "depends on its place, so that like bytes look unlike.",
};
const ABOUT_DESIGNATORS = " An ECI is 241 and its designator, of one to three codewords.";
/** @type {(seen: Seen) => Content} */
function blockStep({ size, dealing, held }) {
  const data = [...held.subarray(0, size.data)];
  const rows = Array.from({ length: size.blocks }, (_, b) => {
    const own = data.filter((_word, w) => blockOf(size, dealing, w) === b);
    const count = plural(own.length, "data codeword", "data codewords");
    return [paragraph(bold(`Block ${b + 1}`), `, ${count}`),
      chips(own.map((word, k) => chip(word, String(k * size.blocks + b + 1))))];
  });
  const how = size.blocks > 1 ? `are dealt like cards to ${size.blocks} blocks, so that a stain is shared by all`
    : "are one block: larger squares alone have more";
  return [paragraph(`The data codewords ${how}. Below each stands its number.`), ...rows.flat()];
}

// A product in the field of 256 elements whose polynomial is 301.
/** @type {(a: number, b: number) => number} */
function times(a, b) {
  let product = 0;
  for (let bit = 7; bit >= 0; bit--) {
    product = (product << 1) ^ (product & 128 ? 301 : 0);
    if ((b >> bit) & 1) product ^= a;
  }
  return product;
}
// The codewords of a block as the coefficients of a polynomial, at the first powers of 2.
/** @type {(words: number[], count: number) => number[]} */
export function syndromes(words, count) {
  const values = [];
  for (let power = 0, at = 2; power < count; power++, at = times(at, 2))
    values.push(words.reduce((sum, word) => times(sum, at) ^ word, 0));
  return values;
}
/** @type {(seen: Seen) => Content} */
function checkStep({ size, dealing, mended, held }) {
  const each = size.check / size.blocks;
  const rows = Array.from({ length: size.blocks }, (_, b) => {
    const own = (/** @type {Uint8Array} */ words) => [...words].filter((_word, w) => blockOf(size, dealing, w) === b);
    const now = syndromes(own(held), each);
    const sums = made("span", { className: "sums", textContent: now.join(" ") });
    const verdict = now.some(Boolean) ? ", so it is damaged." : ": all 0, as they must be.";
    return [paragraph(bold(size.blocks > 1 ? `Block ${b + 1}` : "The block"), ": check codewords"),
      chips(own(mended).slice(-each).map((word, k) => chip(word, String(k + 1), "soft"))),
      made("p", { className: "hint" }, "Its polynomial at 2, 4, 8, …: ", sums, verdict)];
  });
  return [paragraph(`Each block gets ${each} check codewords. Take its codewords as the coefficients of a polynomial, `
    + "over the field of 256 elements with x⁸ + x⁵ + x³ + x² + 1: the check codewords are those that make it 0 at 2, "
    + `4, 8 and so on, the first ${each} powers of 2. From ${each} such values a reader finds which codewords are `
    + `wrong, up to ${size.limit}, and what they should be.`), ...rows.flat()];
}

// The path of the placement: from the eighth bit of each codeword to that of the next.
/** @type {(shape: import("./common.mjs").Shape, count: number) => number[][]} */
export const pathOf = (of, count) => mapOf(of).modules.slice(0, count)
  .map(([, , , , , , , last]) => [last % of.columns, Math.floor(last / of.columns)]);
const place = { word: 0 };
/** @type {(seen: Seen) => number} */
const wordShown = ({ held }) => Math.min(place.word, held.length - 1);
// Of a light module and its number, and of a dark one.
const PATH_INKS = [["#c5e3f6", "#00456e"], ["#00629b", "#fff"]];
/** @type {(seen: Seen, word: number) => SVGElement} */
function pathDrawn(seen, word) {
  const { rows, columns, held, modules } = seen, map = mapOf(seen), points = pathOf(seen, word + 1);
  const d = points.map(([x, y], k) => `${k ? "L" : "M"}${x + 0.5} ${y + 0.5}`).join("");
  const square = (/** @type {number} */ k) => shape("path", { d: `M${k % columns} ${Math.floor(k / columns)}h1v1h-1z`,
    fill: PATH_INKS[modules[k]][0] });
  const label = `The path of the placement up to codeword ${word + 1} of ${held.length}`;
  const width = Math.max(0.16, Math.max(rows, columns) / 260);
  return shape("svg", { id: "path", viewBox: viewBox(seen), role: "img", "aria-label": label },
    shape("path", { fill: "#fff", d: `M-2-2h${columns + 4}v${rows + 4}h-${columns + 4}z` }),
    shape("path", { fill: "#aab2bb", "shape-rendering": "crispEdges", d: runs(seen, (k) => modules[k]) }),
    ...map.modules[word].map(square), numbersDrawn(word, seen, (k) => PATH_INKS[modules[k]][1], {}),
    shape("path", { class: "way", d, fill: "none", stroke: "#d9480f", "stroke-width": width,
      "stroke-linejoin": "round" }));
}
/** @type {(seen: Seen, word: number) => string} */
function wordTold({ held, size }, word) {
  const what = word < size.data ? "data" : "check";
  return `Codeword ${word + 1}, ${what}, is ${held[word]}: ${bitsOf(held[word])}, bit 1 to bit 8.`;
}
/** @type {(seen: Seen) => Content} */
function placeStep(seen) {
  const { held } = seen, word = wordShown(seen);
  const slider = made("input", { type: "range", id: "walk", min: 1, max: held.length, value: word + 1 });
  const label = made("label", { className: "walk" }, "Codeword ", slider, " ",
    made("output", { textContent: `${word + 1} of ${held.length}` }));
  return [paragraph("The bits of each codeword take eight modules, mostly in the shape of a small utah: three rows of "
    + "two, three and three. The codewords follow a path that sweeps up and down the diagonals; the border is left "
    + "out, and shapes that reach over an edge go on at the other side."), label,
    made("p", { id: "walk-words", textContent: wordTold(seen, word) }), pathDrawn(seen, word)];
}
// Shows another codeword of the path. The slider stays as it is, since it may be held.
/** @type {(seen: Seen) => void} */
function walkTo(seen) {
  const word = wordShown(seen);
  one("output", $("step")).textContent = `${word + 1} of ${seen.held.length}`;
  $("walk-words").textContent = wordTold(seen, word);
  $("path").replaceWith(pathDrawn(seen, word));
}
/** @type {(seen: Seen) => Content} */
function borderStep(seen) {
  const count = seen.size.down * seen.size.across;
  const regions = count > 1 ? `This size has ${count} regions, each with a border of its own. ` : "";
  return [paragraph("Last comes the border: a solid column on the left and a solid row at the bottom show where the "
    + "symbol lies and how it stands, and the alternating row and column opposite count its modules. "
    + `${regions}Around the ${shapeWords(seen)} modules stays a light quiet zone, at least one module wide.`)];
}
/** @type {[string, (seen: Seen) => Content][]} */
const STEPS_OF_LESSON = [["The message", messageStep], ["Data codewords", codewordStep], ["Blocks", blockStep],
  ["Check codewords", checkStep], ["Places", placeStep], ["Border", borderStep]];
const UNTOLD = "The lesson needs a symbol that is read. Undo the damage, or enter another message.";
let stepAt = 0;
// What the lesson tells of: the codewords as corrected, but for the sums, which show damage.
/** @type {(seen: Seen) => Seen} */
const taught = (seen) => ({ ...seen, held: stepAt === 3 ? seen.held : seen.mended });

export function drawLesson() {
  if (!folded("lesson").open || $("lesson").hidden) return;
  const { seen, stage } = mark(), [title, step] = STEPS_OF_LESSON[stepAt];
  $("step-count").textContent = `Step ${stepAt + 1} of ${STEPS_OF_LESSON.length}: ${title}`;
  setUsable("step-back", stepAt > 0);
  setUsable("step-on", stepAt + 1 < STEPS_OF_LESSON.length);
  const isTold = seen && stage === VALID && !seen.answer.fault && !seen.corrected.includes(BEYOND);
  $("step").replaceChildren(...(isTold ? step(taught(seen)) : [paragraph(UNTOLD)]));
}
/** @type {(to: number) => void} */
function go(to) {
  stepAt = Math.max(0, Math.min(STEPS_OF_LESSON.length - 1, to));
  drawLesson();
}
export function wireLesson() {
  $("lesson").addEventListener("toggle", drawLesson);
  whenUsed("step-back", () => go(stepAt - 1));
  whenUsed("step-on", () => go(stepAt + 1));
  $("step").addEventListener("input", (event) => {
    if (fieldOf(event).id !== "walk") return;
    place.word = Number(fieldOf(event).value) - 1;
    walkTo(taught(there(mark().seen)));
  });
}
