// What was found in a picture, or by the camera: outlined on it, and listed with what it says, in reading order. One of
// it is at hand.
import { isSame, plural } from "./common.mjs";
import { $, hint, made, setUsable, shape, whenUsed } from "./dom.mjs";
import { desks, take } from "./flow.mjs";
import { gatherAll } from "./gathered.mjs";
import { keepSoon, kept } from "./kept.mjs";
import { keyOfContent } from "./contents.mjs";
import { copiedLines, csvOf, jsonOf, listIn, remarksOn, saidBy, whyUnread } from "./listed.mjs";
import { SOON, brokenWords, enter, isBroken, refuse, whenEntered } from "./order.mjs";
import { panes } from "./state.mjs";
import { copyText, save } from "./taking.mjs";

/** @typedef {import("./listed.mjs").Sighted} Sighted */
/** @typedef {{ symbols: Sighted[], unread: Sighted[], isComplete: boolean, other?: string, width: number,
    height: number, view?: ImageBitmap }} Sights */
/** @typedef {{ name: string, why: string, view: Blob | null, size: { width: number, height: number },
    symbols: Sighted[] }} Picture one of several, with what is seen in it, or why nothing is read */
/** @type {{ list: Sighted[], isComplete: boolean, other: string, chosen: Sighted | null, pictures: Picture[],
    shown: Picture | null }} with the pictures, if there are several, of which one is shown */
const scene = { list: [], isComplete: true, other: "", chosen: null, pictures: [], shown: null };
const KEPT = "found";
let isOwn = false, isStanding = false; // whether what is entered is chosen here; or a picture, which may be read soon
let isBrought = false; // whether what was kept is back: until then nothing takes its place
let clearing = 0; // the timer after which what was found doesn't stand any more beside a picture that isn't read yet

// ---- Drawing

/** @type {(svg: Element, list: Sighted[], size: { width: number, height: number }, chosen?: Sighted | null,
    act?: ((symbol: Sighted) => void) | null) => void} */
export function drawOutlines(svg, list, { width, height }, chosen = null, act = null) {
  svg.setAttribute("viewBox", `0 0 ${width} ${height}`);
  const outline = (/** @type {Sighted} */ symbol) => {
    const points = symbol.corners.map(({ x, y }) => `${x},${y}`).join(" ");
    const name = `${symbol.isRead ? "" : "unread "}${symbol === chosen ? "chosen" : ""}`.trim();
    const polygon = shape("polygon", { points, "vector-effect": "non-scaling-stroke", class: name });
    if (act) polygon.addEventListener("click", () => act(symbol));
    return polygon;
  };
  svg.replaceChildren(...list.map(outline));
}
/** @type {(symbol: Sighted) => Node} */
function entryOf(symbol) {
  const says = symbol.isRead ? saidBy(symbol) || "the empty message" : `Not read. ${whyUnread(symbol)}`;
  const words = made(symbol.isRead ? "code" : "span", { textContent: says });
  const button = made("button", { className: symbol.isRead ? "" : "unread" }, words,
    made("small", { textContent: remarksOn(symbol) }));
  button.setAttribute("aria-pressed", String(symbol === scene.chosen));
  button.addEventListener("click", () => choose(symbol));
  return made("li", {}, button);
}
// Scrolls the list to the one that is chosen; the focus is there, if it was in the list.
/** @type {(hadFocus: boolean) => void} */
function showChosen(hadFocus) {
  const list = $("found-are"), own = /** @type {HTMLElement} */ (list.querySelector("[aria-pressed=true]"));
  if (!own) return;
  const { top, bottom } = own.getBoundingClientRect(), frame = list.getBoundingClientRect();
  list.scrollTop += Math.min(0, top - frame.top) || Math.max(0, bottom - frame.bottom);
  if (hadFocus) own.focus({ preventScroll: true });
}
function drawList() {
  const { list, isComplete, other, chosen } = scene, read = list.filter(({ isRead }) => isRead).length;
  $("found").hidden = list.length - read === 0 && read < 2 && isComplete && !other && !scene.pictures.length;
  setUsable("found-copy", read > 0);
  $("found-title").textContent = plural(read, "symbol is read", "symbols are read");
  const unread = list.length - read, more = isComplete ? "" : "There may be more: the time for a picture was over.";
  const not = unread ? `${plural(unread, "is", "are")} seen and not read.` : "";
  const too = other ? `There is ${other} too, which isn’t a Data Matrix symbol.` : "";
  hint("found-hint", [not, too, more].filter(Boolean).join(" "));
  const hadFocus = $("found-are").contains(document.activeElement);
  const { pictures } = scene;
  $("found-are").replaceChildren(...(pictures.length ? pictures.flatMap(entriesOf) : list.map(entryOf)));
  if (hadFocus || list.length > 1) showChosen(hadFocus); // (to look where it stands has all laid out)
  if (isBrought) keepSoon(KEPT, () => (list.length ? jsonOf(list, isComplete) : ""));
  const size = { width: Number($("outlines").dataset.width) || 1, height: Number($("outlines").dataset.height) || 1 };
  drawOutlines($("outlines"), scene.shown?.symbols ?? list, size, chosen, choose);
}
/** @type {(picture: Picture) => Node[]} */
const entriesOf = ({ name, why, symbols }) => [...symbols.map(entryOf),
  ...(why ? [made("li", { className: "none" }, `${name}: ${why}`)] : [])];
/** @type {(view: ImageBitmap, size: { width: number, height: number }) => void} */
function drawView(view, { width, height }) {
  const canvas = /** @type {HTMLCanvasElement} */ ($("view"));
  [canvas.width, canvas.height] = [view.width, view.height];
  canvas.getContext("bitmaprenderer")?.transferFromImageBitmap(view);
  Object.assign($("outlines").dataset, { width: String(width || view.width), height: String(height || view.height) });
  $("scene").hidden = false;
}

// ---- What is found

// Shows what stands in a picture; `chosen` is at hand.
/** @type {(sights: Sights, chosen?: Sighted | null) => void} */
export function showSights({ symbols, unread, isComplete, other = "", width, height, view }, chosen = null) {
  clearTimeout(clearing);
  if (view) drawView(view, { width, height });
  gatherAll(symbols);
  Object.assign(scene, { list: [...symbols, ...unread], isComplete, other, chosen, pictures: [], shown: null });
  drawList();
}
// Adds to the list what the camera sees for the first time; returns that.
/** @type {(symbols: Sighted[]) => Sighted[]} */
export function addSights(symbols) {
  const known = new Set(scene.list.map(keyOfContent));
  const fresh = symbols.filter((symbol) => !known.has(keyOfContent(symbol)));
  if (!fresh.length) return fresh;
  gatherAll(fresh);
  scene.list.push(...fresh);
  scene.chosen = fresh[fresh.length - 1];
  drawList();
  $("found").hidden = false;
  return fresh;
}
// Begins a list of several pictures.
export const beginPictures = () => clearSights();
// Adds what stands in one of several pictures; the first in which something is read is shown.
/** @type {(given: Sights & { name: string, why: string }) => Promise<void>} */
export async function addPicture({ name, why, symbols = [], unread = [], isComplete = true, view, width, height }) {
  const own = [...symbols, ...unread].map((symbol) => Object.assign(symbol, { picture: name }));
  const picture = { name, why, view: view ? await blobOf(view) : null, size: { width, height }, symbols: own };
  gatherAll(symbols);
  scene.pictures.push(picture);
  scene.list.push(...own);
  scene.isComplete &&= isComplete;
  if (symbols.length && !scene.chosen) scene.chosen = symbols[0];
  await showPictureOf(scene.chosen);
  drawList();
}
/** @type {(view: ImageBitmap) => Promise<Blob>} */
function blobOf(view) {
  const canvas = new OffscreenCanvas(view.width, view.height);
  canvas.getContext("bitmaprenderer").transferFromImageBitmap(view);
  return canvas.convertToBlob({ type: "image/jpeg" });
}
// Shows the picture in which a symbol is, where there are several.
/** @type {(symbol: Sighted | null) => Promise<void>} */
async function showPictureOf(symbol) {
  const own = scene.pictures.find(({ symbols }) => symbol && symbols.includes(symbol));
  if (!own?.view || scene.shown === own) return;
  scene.shown = own;
  const view = await createImageBitmap(own.view);
  if (scene.shown === own) drawView(view, own.size);
}
export function clearSights() {
  clearTimeout(clearing);
  Object.assign(scene, { list: [], isComplete: true, other: "", chosen: null, pictures: [], shown: null });
  $("scene").hidden = true;
  drawList();
}
/** @type {(symbol: Sighted) => boolean} */
export const isShown = (symbol) => scene.list.includes(symbol);
export const isKeepingSights = () => isOwn;
// Enters something beside which the list stands until it is read, but not for long.
/** @type {(act: () => any) => any} */
export function lettingSightsStand(act) {
  isStanding = true;
  try { return act(); } finally { isStanding = false; }
}
// Does something by which the list stays as it is.
/** @type {(act: () => any) => any} */
export function keepingSights(act) {
  isOwn = true;
  try { return act(); } finally { isOwn = false; }
}
/** @type {(symbol: Sighted) => void} */
export function choose(symbol) {
  const { rows, columns, modules, doubtful, limit, quality } = symbol, it = panes.read;
  scene.chosen = symbol;
  drawList();
  showPictureOf(symbol).then(drawList);
  const question = () => desks.quick.ask("look", { grid: { rows, columns, modules }, doubtful, limit }, "found");
  keepingSights(() => enter(it, question, (seen) => {
    if (isBroken(seen)) refuse(it, brokenWords(seen));
    else take(it, { rows, columns, modules, doubtful, limit, seen, quality });
  }));
}
// Brings back the list that was kept.
export async function bringFound() {
  const list = listIn(new TextEncoder().encode(kept(KEPT)));
  isBrought = true;
  const sights = list && await desks.quick.ask("again", list, "found");
  if (!sights?.symbols || scene.list.length) return;
  const { original } = panes.read;
  const isAtHand = (/** @type {Sighted} */ { modules }) => original !== null && isSame(modules, original);
  showSights(sights, [...sights.symbols, ...sights.unread].find(isAtHand) ?? null);
}
export function wireFound() {
  whenEntered((it) => {
    if (it !== panes.read) return;
    clearTimeout(clearing);
    if (isStanding) clearing = setTimeout(clearSights, SOON); else if (!isOwn) clearSights();
  });
  const read = () => scene.list.filter(({ isRead }) => isRead);
  const file = (/** @type {string} */ text, /** @type {string} */ type) => new Blob([text], { type });
  whenUsed("found-copy", () => copyText(copiedLines(read()),
    `Copied: ${plural(read().length, "message", "messages")}`));
  $("found-csv").addEventListener("click", () => save(file(csvOf(scene.list), "text/csv"), "found.csv"));
  $("found-json").addEventListener("click", () =>
    save(file(jsonOf(scene.list, scene.isComplete), "application/json"), "found.json"));
}
