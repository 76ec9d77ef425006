// Pointing at modules and codewords, and turning modules over: with the mouse, a finger, or keys. Only where one
// learns; elsewhere the symbol is a picture.
import { drawAbout, drawWords, spokenModule } from "./cells.mjs";
import { AUTO, BIT, limitIn, there } from "./common.mjs";
import { $, field, hint, one, setUsable, whenUsed } from "./dom.mjs";
import { begin, damage, doubtDamage, look, redo, setLimit, undo, undoAll } from "./flow.mjs";
import { afterThat, inTurn, settled } from "./order.mjs";
import { mapOf, mark, store } from "./state.mjs";
import { QUIET, drawSymbol, withQuiet } from "./symbol.mjs";
import { noLimit } from "./words.mjs";

/** @typedef {import("./state.mjs").Mark} Mark */
/** @typedef {import("./common.mjs").Shape} Shape */
const isLearning = () => store.task === "learn";
/** @type {(module: number | null, word?: number | null) => void} */
function point(module, word = null) {
  const it = mark();
  if (!it.seen) return;
  const map = mapOf(it.seen);
  if (module !== null && map.kind[module] === BIT) word = map.word[module];
  if (module === it.module && word === it.word) return;
  it.module = module;
  it.word = word;
  drawSymbol(); drawWords(); drawAbout();
}
// Where an event is, as shares of the symbol's width and height.
/** @type {(event: MouseEvent) => { x: number, y: number }} */
function placeOfEvent({ clientX, clientY }) {
  const box = $("symbol").getBoundingClientRect(), edge = $("symbol").clientLeft;
  const share = (/** @type {number} */ from, /** @type {number} */ length) => (from - edge) / (length - 2 * edge);
  return { x: share(clientX - box.left, box.width), y: share(clientY - box.top, box.height) };
}
// The module of a symbol of this shape that is there, if one is.
/** @type {(place: { x: number, y: number }, shape: Shape) => number | null} */
function moduleAt({ x, y }, shape) {
  const { rows, columns } = shape, all = withQuiet(shape);
  const r = Math.floor(y * all.rows) - QUIET, c = Math.floor(x * all.columns) - QUIET;
  return r >= 0 && c >= 0 && r < rows && c < columns ? r * columns + c : null;
}
/** @type {(event: MouseEvent) => number | null} */
const moduleUnder = (event) => (mark().seen ? moduleAt(placeOfEvent(event), there(mark().seen)) : null);

// The modules on the line from one to another, so that a quick drag leaves none out.
/** @type {(from: number, to: number, shape: Shape) => number[]} */
function between(from, to, { columns }) {
  const [r, c, R, C] = [Math.floor(from / columns), from % columns, Math.floor(to / columns), to % columns];
  const steps = Math.max(Math.abs(R - r), Math.abs(C - c)), share = (/** @type {number} */ k) => k / (steps || 1);
  /** @type {(k: number) => number} */
  const at = (k) => Math.round(r + (R - r) * share(k)) * columns + Math.round(c + (C - c) * share(k));
  return Array.from({ length: steps + 1 }, (_, k) => at(k));
}
/** @type {(it: Mark, cells: number[]) => void} */
function turn(it, cells) {
  it.modules = there(it.modules).slice();
  for (const cell of cells) it.modules[cell] ^= 1;
  look(it);
}
// Tells the reader that these modules are doubtful, or no longer so.
/** @type {(it: Mark, cells: number[], isDoubtful: boolean) => void} */
function doubt(it, cells, isDoubtful) {
  const doubtful = it.doubtful?.slice() ?? new Uint8Array(there(it.modules).length);
  for (const cell of cells) doubtful[cell] = isDoubtful ? 1 : 0;
  it.doubtful = doubtful.includes(1) ? doubtful : null;
  look(it);
}
// What a click, a drag or a key does to modules: turns them over, or marks them as doubtful.
const isDoubting = () => field("brush-doubt").checked;

// A click or a drag: one step, in which each module is turned over once, or all become what the first one does:
// doubtful, or no longer so.
class Stroke {
  /** @type {number | null} the stamp of what the symbol was entered by */
  entered = null;
  /** @type {Set<number>} */
  turned = new Set();
  /** @type {number | null} the module that was reached last */
  last = null;
  isDoubt = isDoubting();
  isMarking = true; // whether modules become doubtful
  /** @param {Mark} it */
  constructor(it) { this.it = it; }
  /** @type {(place: { x: number, y: number }) => void} */
  to(place) { inTurn(this.it, (it) => this.reach(it, moduleAt(place, it))); }
  /** @type {(it: Mark, k: number | null) => void} */
  reach(it, k) {
    if (k === null) return;
    if (this.entered !== it.entered) {
      [this.entered, this.turned, this.last] = [it.entered, new Set(), k];
      [it.byKeys, it.module, it.word] = [false, null, null];
      this.isMarking = !it.doubtful?.[k];
      begin(it);
    }
    const fresh = between(this.last ?? k, k, it).filter((cell) => !this.turned.has(cell));
    this.last = it.cursor = k;
    if (!fresh.length) return;
    for (const cell of fresh) this.turned.add(cell);
    if (this.isDoubt) doubt(it, fresh, this.isMarking); else turn(it, fresh);
  }
}

// The mouse draws. A finger or pen scrolls and zooms, as the browser does, and turns a module over by a tap: that is a
// click.
function wirePointer() {
  const svg = $("symbol");
  /** @type {Stroke | null} */
  let stroke = null;
  svg.addEventListener("pointerdown", (event) => {
    if (!isLearning()) return;
    if (event.pointerType !== "mouse" || event.button !== 0 || moduleUnder(event) === null) return;
    svg.setPointerCapture(event.pointerId);
    stroke = new Stroke(mark());
    stroke.to(placeOfEvent(event));
  });
  svg.addEventListener("pointermove", (event) => {
    if (event.pointerType !== "mouse" || !isLearning()) return;
    if (stroke) stroke.to(placeOfEvent(event)); else point(moduleUnder(event));
  });
  for (const name of ["pointerup", "pointercancel"]) svg.addEventListener(name, () => { stroke = null; });
  svg.addEventListener("click", (event) => {
    const { pointerType } = /** @type {PointerEvent} */ (event), isTap = pointerType && pointerType !== "mouse";
    if (isTap && isLearning()) new Stroke(mark()).to(placeOfEvent(event));
  });
  svg.addEventListener("pointerleave", () => { if (!stroke) point(null); });
}

// ---- Keys

const speakCursor = () => { $("spoken").textContent = spokenModule(there(mark().seen), mark().cursor); };
/** @type {Record<string, (row: number, column: number) => [number, number]>} */
const STEPS = {
  ArrowUp: (r, c) => [r - 1, c], ArrowDown: (r, c) => [r + 1, c],
  ArrowLeft: (r, c) => [r, c - 1], ArrowRight: (r, c) => [r, c + 1],
  Home: (r) => [r, 0], End: (r) => [r, -1], PageUp: (_r, c) => [0, c], PageDown: (_r, c) => [-1, c],
};
/** @type {(it: Mark, key: string) => void} */
function moveCursor(it, key) {
  const { rows, columns } = it, to = STEPS[key](Math.floor(it.cursor / columns), it.cursor % columns);
  it.cursor = ((to[0] + rows) % rows) * columns + ((to[1] + columns) % columns);
}
/** @type {(it: Mark, isDoubt: boolean) => void} */
function changeAtCursor(it, isDoubt) {
  begin(it);
  if (isDoubt) doubt(it, [it.cursor], !it.doubtful?.[it.cursor]); else turn(it, [it.cursor]);
}
// What a key does to the symbol, if anything.
/** @type {(event: KeyboardEvent) => ((it: Mark) => void) | null} */
function actOf({ key, shiftKey, ctrlKey, metaKey }) {
  const isCommand = ctrlKey || metaKey;
  const isDoubt = isDoubting();
  if (key === " " || key === "Enter") return (it) => inTurn(it, () => changeAtCursor(it, isDoubt));
  if (key.toLowerCase() === "z" && isCommand) return shiftKey ? redo : undo;
  return key === "y" && isCommand ? redo : null;
}
/** @type {(event: KeyboardEvent) => Promise<void>} */
async function keyOnSymbol(event) {
  const it = mark(), isMove = event.key in STEPS, act = actOf(event);
  if (!it.seen || !isLearning()) return;
  if (event.key === "Escape") { $("symbol").blur(); return; }
  if (!isMove && !act) return;
  event.preventDefault();
  it.byKeys = true;
  if (isMove) afterThat(it, () => moveCursor(it, event.key)); else act?.(it);
  await (isMove ? it.turn : settled(it));
  if (it !== mark() || !it.seen) return;
  point(it.cursor);
  drawSymbol();
  speakCursor();
}
function wireKeys() {
  const svg = $("symbol");
  one(".skip").addEventListener("click", (event) => {
    event.preventDefault(); // the address says what is entered, and leads nowhere else
    svg.focus();
  });
  svg.addEventListener("focus", () => {
    if (!svg.matches(":focus-visible") || !mark().seen || !isLearning()) return;
    mark().byKeys = true;
    point(mark().cursor); drawSymbol(); speakCursor();
  });
  svg.addEventListener("blur", () => { mark().byKeys = false; point(null); drawSymbol(); });
  svg.addEventListener("keydown", keyOnSymbol);
}
function wireWords() {
  const box = $("words");
  box.addEventListener("pointerover", (event) => {
    const node = /** @type {Element} */ (event.target).closest("#words > b");
    if (node) point(null, Number(node.id.slice(5)));
  });
  box.addEventListener("pointerleave", () => point(null));
  box.addEventListener("blur", () => point(null));
  box.addEventListener("keydown", (event) => {
    const cells = /** @type {HTMLElement[]} */ ([...box.children]);
    const across = cells.findIndex((cell) => cell.offsetTop > cells[0].offsetTop);
    const row = across < 0 ? cells.length : across, w = mark().word ?? -1, last = cells.length - 1;
    /** @type {Record<string, number>} */
    const steps = { ArrowRight: w + 1, ArrowLeft: w - 1, ArrowDown: w + row, ArrowUp: w - row, Home: 0, End: last };
    const to = steps[event.key];
    if (to === undefined || !cells.length) return;
    event.preventDefault();
    const at = Math.max(0, Math.min(cells.length - 1, to));
    point(null, at);
    cells[at].scrollIntoView({ block: "nearest" });
  });
}

// ---- Buttons, the border's limit, and the size on the screen

const LARGEST_ZOOM = 5;
let zoom = 1;
/** @type {(to: number) => void} */
function setZoom(to) {
  zoom = Math.max(1, Math.min(LARGEST_ZOOM, to));
  $("easel").style.setProperty("--zoom", String(zoom));
  setUsable("zoom-out", zoom > 1);
  setUsable("zoom-in", zoom < LARGEST_ZOOM);
}
function limitEntered() {
  const { value: text, validity } = field("border-limit"), limit = limitIn(text);
  if (!validity.badInput && (text === "" || limit !== null)) {
    $("border-limit").removeAttribute("aria-invalid");
    inTurn(mark(), (it) => setLimit(it, limit));
    return;
  }
  $("border-limit").setAttribute("aria-invalid", "true");
  mark().limitWhy = noLimit(text, mark().seen?.limit);
  hint("border-hint", mark().limitWhy, true);
}
export function wireDamage() {
  wirePointer(); wireKeys(); wireWords(); setZoom(1);
  const acts = {
    "to-limit": () => damage("limit"), "one-more": () => damage("more"), scratch: () => damage("scratch"),
    undo, redo, "undo-all": undoAll, tell: doubtDamage,
    usual: () => inTurn(mark(), (it) => setLimit(it, null)),
    "any-border": () => inTurn(mark(), (it) => setLimit(it, AUTO)),
  };
  for (const [id, act] of Object.entries(acts)) $(id).addEventListener("click", () => act());
  whenUsed("zoom-in", () => setZoom(zoom + 1));
  whenUsed("zoom-out", () => setZoom(zoom - 1));
  $("border-limit").addEventListener("input", limitEntered);
  $("border-limit").addEventListener("blur", () => inTurn(mark(), look));
}
