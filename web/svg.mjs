// Pictures that are drawings, in SVG. A browser draws them only where there is a document, and can't be stopped at it.
// So it is bounded before how much there is to draw, also by elements that are used many times, what takes long
// whatever its size is refused by name, and it is drawn small first, to see how long it takes. What is drawn is what
// was counted, written anew, whatever encoding or styles the file declares beside it.
import { imageOf } from "./bitmap.mjs";
import { there } from "./common.mjs";

const MOST_OF_SVG = 4e6;
const MOST_DRAWN = 60000; // elements; some count as many
const PER_ELEMENT = 100; // characters of attributes that count as an element
const COSTLY = 200; // elements that a layer of an element's own, or dashes, count as
const LENGTHS = [700, 2800]; // pixels of the longer side, at least and at most
const FIRST_LENGTH = 88; // pixels of the longer side that are drawn first
const MOST_TIME = 2500; // milliseconds that a drawing may take
const REFUSED = /^(image|foreignObject|filter|marker|animate|animateMotion|animateTransform|set|script)$/;
const LAYER = /opacity|mask|clip-path|blend|filter|dasharray/;
const STYLES = /url\(|@import|opacity|mask|blend|filter|dasharray/;
const INSTEAD = "Save it as PNG, and open that.";

/** @type {(attribute: Attr) => boolean} */
const isReference = ({ localName, value }) => localName === "href" && value.startsWith("#");
/** @type {(element: Element) => string[]} */
function referencesOf(element) {
  return [...element.attributes].flatMap((attribute) => (isReference(attribute) ? [attribute.value.slice(1)]
    : [...attribute.value.matchAll(/url\(\s*["']?#([^"')]+)["']?\s*\)/g)].map(([, name]) => name)));
}
/** @type {(element: Element) => number} */
function ownCost(element) {
  let cost = 1;
  for (const { nodeType, nodeValue } of element.childNodes)
    if (nodeType === Node.TEXT_NODE || nodeType === Node.CDATA_SECTION_NODE) cost += (nodeValue ?? "").trim().length;
  for (const { localName, value } of element.attributes) {
    cost += value.length / PER_ELEMENT;
    if (LAYER.test(localName === "style" ? value : localName)) cost += COSTLY;
  }
  return cost;
}
// How many elements are drawn for this one: itself, the letters and elements that it holds, and what it refers to, as
// often as it does.
/** @type {(element: Element, named: Map<string, Element>, known: Map<Element, number>) => number} */
function costOf(element, named, known) {
  const before = known.get(element);
  if (before !== undefined) return before;
  known.set(element, Infinity); // if it comes back to itself
  let cost = ownCost(element);
  for (const child of element.children) cost += costOf(child, named, known);
  for (const name of referencesOf(element)) cost += named.has(name) ? costOf(there(named.get(name)), named, known) : 0;
  known.set(element, cost);
  return cost;
}
// Why a drawing isn't drawn, in words, or "".
/** @type {(drawing: Document) => string} */
function whyNotDrawn(drawing) {
  const all = [...drawing.querySelectorAll("*")];
  if (drawing.querySelector("parsererror")) return "The file can’t be opened as a picture.";
  const refused = all.find(({ localName }) => REFUSED.test(localName));
  if (refused) return `The drawing has an element ‘${refused.localName}’, which isn’t drawn here. ${INSTEAD}`;
  /** @type {(it: Element) => boolean} */
  const isOdd = ({ localName, textContent }) => localName === "style" && STYLES.test(textContent ?? "");
  if (all.some(isOdd)) return `The drawing has styles that aren’t drawn here. ${INSTEAD}`;
  /** @type {Map<string, Element>} of two elements with one name the first is used */
  const named = new Map();
  for (const element of all) if (element.id && !named.has(element.id)) named.set(element.id, element);
  let cost = Infinity;
  try { cost = costOf(drawing.documentElement, named, new Map()); } catch { /* nested too deeply */ }
  const most = MOST_DRAWN.toLocaleString("en");
  return cost > MOST_DRAWN ? `The drawing has more than ${most} elements, as often as they are used.` : "";
}

/** @type {(image: HTMLImageElement) => [number, number]} */
const sizeOf = ({ naturalWidth, naturalHeight }) => [naturalWidth || 1000, naturalHeight || 1000];
// The image with so many pixels on its longer side, once it is drawn.
/** @type {(image: HTMLImageElement, length: number) => any} */
function drawnAt(image, length) {
  const size = sizeOf(image), scale = length / Math.max(...size);
  const canvas = new OffscreenCanvas(...size.map((pixels) => Math.max(1, Math.round(pixels * scale))));
  const pen = canvas.getContext("2d");
  pen.drawImage(image, 0, 0, canvas.width, canvas.height);
  pen.getImageData(0, 0, 1, 1); // else it may be drawn later
  return canvas;
}
// The image as large as it is, within bounds, or as can be drawn in so many milliseconds: each length takes four times
// as long as half of it. Null if that is too small.
/** @type {(image: HTMLImageElement, time: number) => any} */
function drawnInTime(image, time) {
  const wanted = Math.min(Math.max(...sizeOf(image), LENGTHS[0]), LENGTHS[1]);
  for (let length = FIRST_LENGTH; ; length = Math.min(2 * length, wanted)) {
    const begun = performance.now(), canvas = drawnAt(image, length);
    if (length === wanted) return canvas;
    if (4 * (performance.now() - begun) > time) return length < LENGTHS[0] ? null : canvas;
  }
}

// A drawing as an ImageBitmap, or why it isn't drawn: { bitmap } or { why }.
/** @type {(file: Blob, time?: number) => Promise<{ why?: string, bitmap?: ImageBitmap }>} */
export async function drawnSvg(file, time = MOST_TIME) {
  if (file.size > MOST_OF_SVG) return { why: `The drawing has more than ${MOST_OF_SVG / 1e6} million bytes.` };
  const text = await file.text();
  if (/<!ENTITY/i.test(text)) return { why: "The drawing declares entities, which aren’t read here." };
  const drawing = new DOMParser().parseFromString(text, "image/svg+xml"), why = whyNotDrawn(drawing);
  if (why) return { why };
  const counted = new XMLSerializer().serializeToString(drawing.documentElement);
  try {
    const canvas = drawnInTime(await imageOf(new Blob([counted], { type: "image/svg+xml" })), time);
    if (!canvas) return { why: `The drawing takes too long to draw. ${INSTEAD}` };
    return { bitmap: canvas.transferToImageBitmap() };
  } catch { return { why: "The file can’t be opened as a picture." }; }
}
