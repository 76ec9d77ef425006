// Data Matrix ECC 200 for programs in JavaScript: reads symbols in pictures and grids, writes messages as symbols, by
// the proved library and the sampler in WebAssembly. docs/JAVASCRIPT.md tells how it is used. The page stands on it.
import { bytesOf, textOf, waysOfText } from "./charsets.mjs";
import { ANY, ASCII, EXTENDED, FNC1, ONE, RECTANGLE, SHORTER, SMALLEST, SQUARE, there } from "./common.mjs";
import { elementsOfContent, contentOfElements } from "./gs1.mjs";
import { CODE_WORDS, SAMPLER } from "./layouts.mjs";
import { isSameContent, contentOf, nameOfFile, partOf, together } from "./contents.mjs";
import { Library } from "./library.mjs";
import { demandKnown } from "./options.mjs";
import { Sampler } from "./sampler.mjs";

/** @typedef {import("./common.mjs").Grid} Grid */
/** @typedef {import("./library.mjs").Fault} Fault */
/** @typedef {import("./sampler.mjs").Found} Found */
/** @typedef {{ data: ArrayLike<number>, width: number, height: number }} Picture as an ImageData has it: red, green,
    blue and opacity of each pixel; or its luminance alone, 0 black and 255 white */
/** @typedef {import("./contents.mjs").Content} Content */
/** @typedef {import("./common.mjs").Limit} Limit */
/** @typedef {{ isGs1: boolean, bytes: Uint8Array, text: string | null, charset: string,
    elements: { identifier: string, value: string }[] | null }} Sense of a content: whether FNC1 is the first item; its
    bytes without that, others as the byte 29; these as text, by the charsets of the marks, if they are that; and its
    identifiers with their values, if it is GS1 data as the rules have it */
/** @typedef {Content & Sense} Message its items, 0 to 255, and 256 for FNC1, its marks and its head, and their sense */
/** @typedef {Found & Message} Symbol */
/** @typedef {string | ArrayLike<number> | Partial<Content>} Given to be written: text, bytes or items, or a content */
/** @typedef {{ symbols: Symbol[], unread: Found[], isComplete: boolean }} Finding in reading order */
/** @typedef {{ form?: string, shape?: string, rows?: number, columns?: number, gs1?: boolean }} Form in which a message
    is written: `smallest`, in the encodations that take the smallest size; `ascii`, or `shorter` for bytes where that
    takes fewer codewords; in the smallest `square`, `rectangle` of ISO/IEC 16022, `extended` one of ISO/IEC 21471 too,
    or in `any`; or in the size of these rows and columns; and whether a text is an element string */
/** @type {Record<string, number>} */
const FORMS = { ascii: ASCII, shorter: SHORTER, smallest: SMALLEST };
/** @type {Record<string, number>} */
const SYMBOL_SHAPES = { square: SQUARE, rectangle: RECTANGLE, extended: EXTENDED, any: ANY };

// The options of each call, by their names.
const OPTIONS = {
  read: ["most", "mostUnread", "milliseconds", "effort", "leastSide", "margin", "quality"],
  write: ["form", "shape", "rows", "columns", "gs1"],
  readGrid: ["limit", "doubtful"], normal: ["limit", "doubtful", "form"],
};

// What can't be read or written: a code of library/ecc200.h, with the value and the place that it tells.
export class Refused extends Error {
  /** @param {Fault} fault */
  constructor({ code, value, place }) {
    super(CODE_WORDS[code] ?? `code ${code}`);
    this.name = "Refused";
    this.code = code;
    this.value = value;
    this.place = place;
  }
}
// The luminance of each pixel, as on white paper where it is transparent. A product is here what the quotient is, and
// takes WebKit half as long.
/** @type {(picture: Picture) => Uint8Array} */
export function luminanceOf({ data, width, height }) {
  const count = width * height;
  if (data.length === count) return data instanceof Uint8Array ? data : Uint8Array.from(data);
  if (data.length !== 4 * count) throw new TypeError("a picture has four numbers for each pixel, or one");
  const isWhole = (data instanceof Uint8ClampedArray || data instanceof Uint8Array) && data.byteOffset % 4 === 0;
  const bytes = isWhole ? data : Uint8ClampedArray.from(data), grey = new Uint8Array(count);
  const pixels = new Uint32Array(bytes.buffer, bytes.byteOffset, count);
  for (let k = 0; k < count; k++) {
    const pixel = pixels[k], alpha = pixel >>> 24;
    const light = 299 * (pixel & 255) + 587 * ((pixel >>> 8) & 255) + 114 * ((pixel >>> 16) & 255) + 500;
    grey[k] = alpha === 255 ? ((light + 0.25) * 0.001) | 0 : ((light / 1000) * alpha + 255 * (255 - alpha)) / 255;
  }
  return grey;
}
/** @type {(content: Content) => Message} */
function messageIn({ items, marks, head }) {
  const isGs1 = items[0] === FNC1, content = { items, marks, head };
  const bytes = bytesOf(isGs1 ? items.slice(1) : items);
  return { ...content, isGs1, bytes, ...textOf(content), elements: elementsOfContent(content) };
}
// The contents by which what is given may be written.
/** @type {(given: Given, isElements: boolean) => Content[]} */
function waysGiven(given, isElements) {
  if (isElements) {
    if (typeof given !== "string") throw new TypeError("with gs1 a text is written, with its identifiers in brackets");
    return [contentOfElements(given)];
  }
  if (typeof given === "string") return waysOfText(given);
  if ("length" in given) return [contentOf(Array.from(given))];
  const { items, marks, head } = given;
  return [contentOf(Array.from(items ?? []), marks ?? [], head ?? null)];
}
// What readings say together that are the parts of one message, in any order, each of them there.
/** @type {(readings: Content[]) => Message} */
export function joined(readings) {
  const parts = readings.map(partOf), names = new Set(parts.map((part) => part && nameOfFile(part)));
  const byPart = new Map(readings.map((content, k) => [parts[k]?.part, content]));
  const contents = Array.from({ length: parts[0]?.parts ?? 0 }, (_, k) => byPart.get(k + 1));
  const areAll = names.size === 1 && contents.length > 0 && contents.every(Boolean);
  if (!areAll || !readings.every((content, k) => isSameContent(content, there(byPart.get(parts[k]?.part)))))
    throw new RangeError("these aren't the parts of one message, each of them there");
  return messageIn(together(contents.map(there)));
}

export class Ecc200 {
  // From the library and the sampler: their bytes, or what is compiled of them.
  /** @type {(library: BufferSource | WebAssembly.Module, sampler: BufferSource | WebAssembly.Module) =>
      Promise<Ecc200>} */
  static async load(library, sampler) {
    const proved = await Library.load(library);
    return new Ecc200(proved, await Sampler.load(sampler, proved));
  }
  /** @param {Library} library @param {Sampler} sampler */
  constructor(library, sampler) {
    this.library = library;
    this.sampler = sampler;
  }
  // The symbols in a picture, those that were found and not read, and whether all of it was searched.
  /** @type {(picture: Picture, search?: import("./sampler.mjs").Search) => Finding} */
  read(picture, search = {}) {
    demandKnown(search, OPTIONS.read);
    const { width, height } = picture;
    if (![width, height].every((side) => Number.isInteger(side) && side > 0 && side <= SAMPLER.MOST_SIDE))
      throw new RangeError(`a picture has 1 to ${SAMPLER.MOST_SIDE} pixels on each side`);
    const { symbols, unread, ended, hasNoMemory } = this.sampler.find(luminanceOf(picture), width, height, search);
    if (hasNoMemory) throw new RangeError("there is no memory for this picture");
    return { symbols: symbols.map((it) => ({ ...it, ...messageIn(it) })), unread,
      isComplete: ended === SAMPLER.WHOLE };
  }
  // The symbol of a message: of text, of bytes or items, or of a content.
  /** @type {(message: Given, form?: Form) => Grid} */
  write(message, given = {}) {
    demandKnown(given, OPTIONS.write);
    const { form = "smallest", shape = "square", rows = 0, columns = 0, gs1 = false } = given;
    const how = { form: FORMS[form], shape: rows || columns ? ONE : SYMBOL_SHAPES[shape], rows, columns };
    const ways = waysGiven(message, gs1).map((it) => [it]);
    const { symbols: [{ fault, ...symbol }] } = this.library.writeSmallest(ways, how);
    if (fault) throw new Refused(fault);
    return /** @type {Grid} */ (symbol);
  }
  // What an upright grid says, of which these modules are doubtful, with at most so many wrong border modules.
  /** @type {(grid: Grid, more?: { limit?: Limit, doubtful?: Uint8Array | null }) =>
      Message & import("./library.mjs").Answer} */
  readGrid(grid, more = {}) {
    demandKnown(more, OPTIONS.readGrid);
    const { limit = null, doubtful = null } = more, { library } = this, most = library.limitOf(grid, limit, doubtful);
    const { fault, ...answer } = library.read(grid, most, doubtful);
    if (fault) throw new Refused(fault);
    return { ...answer, ...messageIn(/** @type {Content} */ (answer)) };
  }
  // The normal symbol of what an upright grid says.
  /** @type {(grid: Grid, more?: { limit?: Limit, doubtful?: Uint8Array | null, form?: string }) => Grid} */
  normal(grid, more = {}) {
    demandKnown(more, OPTIONS.normal);
    const { limit = null, doubtful = null, form = "ascii" } = more, { library } = this;
    const most = library.limitOf(grid, limit, doubtful);
    const { fault, ...symbol } = library.normal(grid, most, FORMS[form], doubtful);
    if (fault) throw new Refused(fault);
    return /** @type {Grid} */ (symbol);
  }
  // The sizes that symbols have.
  /** @type {() => import("./library.mjs").Size[]} */
  sizes() { return [...this.library.sizes.values()]; }
}
