// The sizes that a symbol may have that is made: the smallest of some, or one of the 48.
import { ANY, EXTENDED, ONE, RECTANGLE, SQUARE, shapeName, shapeWords } from "./common.mjs";
import { $, field, made } from "./dom.mjs";

/** @typedef {import("./library.mjs").Size} Size */
/** @type {Record<string, number>} by the names of index.html */
const SHAPES = { square: SQUARE, rectangle: RECTANGLE, extended: EXTENDED, any: ANY, one: ONE };
/** @type {Map<string, Size>} */
const sizes = new Map();

// Lists the sizes, by what they are.
/** @type {(list: Size[]) => void} */
export function listSizes(list) {
  /** @type {[string, (size: Size) => boolean][]} */
  const groups = [["Squares", ({ rows, columns }) => rows === columns],
    ["Rectangles", ({ rows, columns, isExtension }) => rows !== columns && !isExtension],
    ["Rectangles of the extension", ({ isExtension }) => isExtension]];
  for (const size of list) sizes.set(shapeName(size), size);
  /** @type {(size: import("./common.mjs").Shape) => HTMLOptionElement} */
  const option = (size) => made("option", { value: shapeName(size), textContent: shapeWords(size) });
  $("size").replaceChildren(...groups.map(([label, isIn]) =>
    made("optgroup", { label }, ...list.filter(isIn).map(option))));
}
/** @type {(shape: import("./common.mjs").Shape) => boolean} */
export const isSize = (shape) => sizes.has(shapeName(shape));
// The choice as links have it: the shape, or the name of one size.
/** @type {() => string} */
export const sizeChosen = () => (field("shape").value === "one" ? field("size").value : field("shape").value);
// Chooses what a link has; the smallest square, if that is none.
/** @type {(name: string) => void} */
export function chooseSize(name) {
  const isOne = sizes.has(name);
  field("shape").value = isOne ? "one" : Object.keys(SHAPES).includes(name) && name !== "one" ? name : "square";
  if (isOne) field("size").value = name;
  showChoice();
}
export function showChoice() { $("size").hidden = field("shape").value !== "one"; }
// How a message is written in a form.
/** @type {(form: number) => import("./library.mjs").How} */
export function howIn(form) {
  const { rows = 0, columns = 0 } = (field("shape").value === "one" && sizes.get(field("size").value)) || {};
  return { form, shape: SHAPES[field("shape").value], rows, columns };
}
