// Finding and making what the page consists of. Texts are always put in as texts, and never read as markup.
import { there } from "./common.mjs";

// An element of index.html, by its id.
/** @type {(id: string) => HTMLElement} */
export const $ = (id) => /** @type {HTMLElement} */ (document.getElementById(id));
// One in which something is entered or chosen: an input, a field of text, or a list. What they have in common, and what
// inputs have besides.
/** @type {(id: string) => HTMLInputElement} */
export const field = (id) => /** @type {HTMLInputElement} */ ($(id));
// What is entered in, of an event.
/** @type {(event: Event) => HTMLInputElement} */
export const fieldOf = ({ target }) => /** @type {HTMLInputElement} */ (target);
// One that folds.
/** @type {(id: string) => HTMLDetailsElement} */
export const folded = (id) => /** @type {HTMLDetailsElement} */ ($(id));

// The length that is entered, in millimetres, with a point or a comma; null if it is none of these.
/** @type {(id: string, least: number, most: number) => number | null} */
export function lengthIn(id, least, most) {
  const text = field(id).value.trim().replace(",", "."), length = Number(text);
  return /^\d*\.?\d*$/.test(text) && text && length >= least && length <= most ? length : null;
}
// The whole number that is entered, or null if it is none of these.
/** @type {(id: string, least: number, most: number) => number | null} */
export function numberIn(id, least, most) {
  const { value } = field(id), number = Number(value);
  return value !== "" && Number.isInteger(number) && number >= least && number <= most ? number : null;
}
// The element in another, or in the page, that a selector says.
/** @type {(selector: string, within?: ParentNode) => Element} */
export const one = (selector, within = document) => there(within.querySelector(selector));
// All elements that a selector says.
/** @type {(selector: string) => any[]} */
export const allOf = (selector) => [...document.querySelectorAll(selector)];

/** @type {(tag: string, properties?: object, ...children: (Node | string)[]) => any} */
export function made(tag, properties = {}, ...children) {
  const node = Object.assign(document.createElement(tag), properties);
  node.append(...children);
  return node;
}
// An element of a drawing, by its attributes.
/** @type {(tag: string, attributes?: object, ...children: (Node | string)[]) => SVGElement} */
export function shape(tag, attributes = {}, ...children) {
  const node = document.createElementNS("http://www.w3.org/2000/svg", tag);
  for (const [name, value] of Object.entries(attributes)) node.setAttribute(name, value);
  node.append(...children);
  return node;
}
// Words in which `these` stand as code.
/** @type {(text: string) => (Node | string)[]} */
export const withCode = (text) => text.split("`").map((part, k) => (k % 2 ? made("code", {}, part) : part));

// Buttons that can't be used now stay in reach of the keyboard, so that focus isn't lost; `whenUsed` acts only if they
// can be.
/** @type {(id: string, isUsable: boolean) => void} */
export function setUsable(id, isUsable) { $(id).setAttribute("aria-disabled", String(!isUsable)); }
/** @type {(id: string, action: () => void) => void} */
export function whenUsed(id, action) {
  $(id).addEventListener("click", () => { if ($(id).getAttribute("aria-disabled") !== "true") action(); });
}
// Says something below a field, which is marked if that is bad.
/** @type {(id: string, said: string | (Node | string)[], isBad?: boolean, field?: string | null) => void} */
export function hint(id, said, isBad = false, field = null) {
  $(id).replaceChildren(...[said].flat());
  $(id).classList.toggle("bad", isBad);
  if (!field) return;
  if (isBad) $(field).setAttribute("aria-invalid", "true"); else $(field).removeAttribute("aria-invalid");
}
