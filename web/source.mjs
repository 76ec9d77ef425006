// Where the symbol comes from: a message, a grid, or a link.
import { ASCII, MOST_TEXT, SHORTER, SMALLEST, TOO_LONG, isSameShape, plural, shapeWords, there } from "./common.mjs";
import { $, allOf, field, hint, made, withCode } from "./dom.mjs";
import { C40, EDIFACT, TURNED } from "./examples.mjs";
import { begin, desks, setLimit, showTask, take, whenShown } from "./flow.mjs";
import { gridText } from "./grids.mjs";
import { takenAsSpelled, takenAsTyped, whyNot } from "./gs1.mjs";
import { beginEntry, tellLink } from "./link.mjs";
import { takenAsText, tooMuch } from "./messages.mjs";
import { brokenWords, clear, enter, inTurn, isBroken, refuse, settled } from "./order.mjs";
import { MOST_PARTS, chooseParts, partNow, partsNow, showPart, waysTaken, wireParts } from "./parts.mjs";
import { chooseSize, howIn, showChoice } from "./sizes.mjs";
import { TASKS, VALID, panes } from "./state.mjs";
import { refusal, stood, tooLong } from "./words.mjs";

/** @typedef {import("./state.mjs").Mark} Mark */
/** @typedef {import("./common.mjs").Limit} Limit */
const FORMS = [SMALLEST, ASCII, SHORTER];
// The form that is chosen.
/** @type {() => number} */
export const formNow = () => there(FORMS.find((form) => field(`profile-${form}`).checked));
// What a text that is entered as a message stands for, as it is to be taken.
/** @type {(text: string) => import("./messages.mjs").Taken} */
export const takenNow = (text) => KINDS[kindNow()](text);
// How what is entered can be taken, by the names of index.html and of links.
/** @type {Record<string, (text: string) => import("./messages.mjs").Taken>} */
const KINDS = { typed: takenAsTyped, text: takenAsText, message: takenAsSpelled };
export const kindNow = () => there(Object.keys(KINDS).find((kind) => field(`kind-${kind}`).checked));
const STILL = "The symbol that is shown is the one before, and isn’t read.";

// ---- The message

/** @type {(area: HTMLInputElement | HTMLTextAreaElement) => void} */
function fitHeight(area) {
  area.style.height = "auto";
  area.style.height = `${Math.min(200, area.value.length > MOST_TEXT ? 200 : area.scrollHeight + 2)}px`;
}
/** @type {(words: string, act: () => void) => void} */
function offerOne(words, act) {
  const button = made("button", { textContent: words });
  button.addEventListener("click", () => { act(); $("message").focus(); writeMessage(); });
  $("message-hint").append(" ", button);
}
/** @type {(ways: { name: string, text: string }[]) => void} */
function offer(ways) {
  for (const { name, text } of ways) offerOne(`Spell it ${name}`, () => { field("message").value = text; });
}
// Offers to take what is entered in another way.
/** @type {(words: string, kind: string) => void} */
const offerKind = (words, kind) => offerOne(words, () => { field(`kind-${kind}`).checked = true; });
/** @type {(words: string, ways?: { name: string, text: string }[], mayBeText?: boolean) => void} */
function refuseMessage(words, ways = [], mayBeText = ways.length > 0) {
  for (const each of [...FORMS, "now"]) $(`side-${each}`).textContent = "";
  hint("message-hint", `${words} ${panes.write.modules ? STILL : ""}`, true, "message");
  offer(ways);
  if (mayBeText) offerKind("Take it as text", "text");
  refuse(panes.write, words);
}
/** @type {(shapes: (import("./common.mjs").Shape | null)[]) => void} */
function showShapes(shapes) {
  for (const form of FORMS) {
    const shape = shapes[form];
    $(`side-${form}`).textContent = shape ? shapeWords(shape) : "doesn’t fit";
  }
  const own = shapes[formNow()], plain = shapes[ASCII], isSaving = own && plain && !isSameShape(own, plain);
  const saved = isSaving ? ` in place of ${shapeWords(plain)}` : "";
  $("side-now").textContent = `${$(`side-${formNow()}`).textContent}${saved}`;
}
const SPELLINGS = "`\\\\` is the backslash, `\\xHH` a byte, `\\F` FNC1, `\\E{26}` the ECI 26.";
const AS_ELEMENTS = "Taken as GS1 data. To take it as plain text, spell the first bracket as a byte: `\\x28` is ( and "
  + "`\\x5B` is [.";
const AS_TYPED = "A backslash is one here, and spells nothing.";
// What there is to know about a message that is taken.
/** @type {(text: string, read: { isElements?: boolean }) => string} */
function hintOn(text, { isElements }) {
  const kind = kindNow();
  if (isElements) return kind === "typed" ? "Taken as GS1 data." : AS_ELEMENTS;
  if (kind === "typed" && /\\(?:F|x[0-9A-Fa-f]{2}|E\{\d+\})/.test(text)) return AS_TYPED;
  return kind === "message" && text.includes("\\") ? SPELLINGS : "";
}
// Offers what else a message may be meant as that is taken.
/** @type {(text: string, read: { isElements?: boolean }) => void} */
function offerOthers(text, { isElements }) {
  if (kindNow() !== "typed") return;
  if (isElements) offerKind("Take it as text", "text");
  else if (hintOn(text, { isElements })) offerKind("Take it as spelled", "message");
}

// What isn't written, and by how much it is too long; and what could be written instead.
/** @type {(written: any, contents: import("./contents.mjs").Content[], how: import("./library.mjs").How) => void} */
function refuseWritten({ fault, at, fits }, contents, how) {
  const { length } = contents[at].items, which = contents.length > 1 ? `Part ${at + 1} of ${contents.length}: ` : "";
  const over = plural(length - fits, "character", "characters");
  const why = fault.code === TOO_LONG ? `${tooLong(how)} It is ${over} too long.` : refusal(fault);
  refuseMessage(`${which}${why}`);
  const all = contents.reduce((sum, { items }) => sum + items.length, 0);
  const parts = fits ? Math.max(contents.length + 1, Math.ceil(all / fits)) : Infinity;
  if (parts <= MOST_PARTS) offerOne(`Make ${parts} symbols of it`, () => chooseParts(parts, 1));
}
// Writes the message that is entered.
export function writeMessage() {
  const it = panes.write, text = field("message").value, read = takenNow(text);
  fitHeight(field("message"));
  if (!read.content) {
    const mayBeText = kindNow() === "typed" ? !read.isTooMuch : undefined;
    refuseMessage(`${whyNot(read)}${read.isTooMuch ? " The link doesn’t keep them." : ""}`, read.ways, mayBeText);
    return;
  }
  const ways = waysTaken(read, partsNow()), how = howIn(formNow()), parts = ways[0].length;
  const at = Math.min(partNow(), parts) - 1;
  showPart(parts);
  enter(it, () => desks.quick.ask("write", { ways, at, how }, "write"), (written) => {
    if (isBroken(written)) { refuseMessage(brokenWords(written)); return; }
    const contents = ways[written.way];
    if (written.fault) refuseWritten(written, contents, how);
    else {
      const { modules, rows, columns, seen } = written;
      hint("message-hint", withCode(hintOn(text, read)), false, "message");
      offerOthers(text, read);
      take(it, { modules, rows, columns, content: contents[at], seen });
    }
    showShapes(written.shapes);
  });
}
/** @type {(text: string) => void} */
function enterMessage(text) {
  field("message").value = text;
  field("kind-typed").checked = true;
  writeMessage();
}

// ---- The grid

/** @type {(symbol: any) => void} */
function takeGrid(symbol) {
  const it = panes.read, why = isBroken(symbol) ? brokenWords(symbol) : symbol.why;
  if (!symbol.modules) {
    hint("grid-hint", why, true, "grid");
    refuse(it, why);
    return;
  }
  hint("grid-hint", stood(symbol, "The grid is"), false, "grid");
  takeSymbol(symbol);
}
/** @type {(symbol: any) => void} */
const takeSymbol = ({ modules, rows, columns, doubtful, limit, seen, quality }) =>
  take(panes.read, { modules, rows, columns, doubtful, limit, seen, quality });
export function readGrid(text = field("grid").value) {
  const it = panes.read;
  if (!text.trim()) {
    clear(it);
    hint("grid-hint", "Paste the rows of a grid here.", false, "grid");
    return;
  }
  enter(it, () => desks.quick.ask("grid", text, "grid"), takeGrid);
}
function enterGrid() {
  const much = tooMuch(field("grid").value);
  hint("picture-hint", "");
  if (!much) { readGrid(); return; }
  field("grid").value = ""; // even to lay it out takes long
  takeGrid({ why: much });
}
// Reads the symbol of the message, as it stands now.
export function readWritten() {
  const { write, read } = panes;
  enter(read, async () => {
    await settled(write);
    if (write.stage !== VALID) return { why: "There is no written symbol: the message can’t be taken." };
    const text = gridText(there(write.seen));
    return { ...await desks.quick.ask("grid", text, "written"), text };
  }, (symbol) => {
    field("grid").value = symbol.text ?? "";
    takeGrid(symbol);
  });
}

// ---- From a link

// Turns modules over and marks others as doubtful, in one step, and sets the limit.
/** @type {(it: Mark, turned: number[], doubtful: number[], limit: { limit: Limit, why: string }) => void} */
function spoil(it, turned, doubtful, { limit, why }) {
  if (!turned.length && !doubtful.length && limit === null && !why) return;
  if (turned.length || doubtful.length) begin(it);
  const modules = it.modules = there(it.modules).slice(), marks = new Uint8Array(modules.length);
  for (const place of turned) modules[place] ^= 1;
  for (const place of doubtful) marks[place] = 1;
  if (doubtful.length) it.doubtful = marks;
  setLimit(it, limit, why);
}
// What an address without a fragment holds.
const begun = () => ({
  message: field("message").defaultValue, kind: "typed", form: SMALLEST, size: "square", parts: 1, part: 1,
  grid: null, task: "make", pane: "write", damage: () => [], doubtful: () => [], gridDamage: () => [],
  gridDoubtful: () => [], limit: { limit: null, why: "" }, gridLimit: { limit: null, why: "" },
});
// Shows what a link holds. One that names a task alone keeps what is entered.
/** @type {(linked: any, isFirst: boolean) => Promise<any>} */
export async function restore(linked, isFirst) {
  const { write, read } = panes, held = linked?.isBare ? { ...begun(), ...linked } : linked ?? begun();
  if (linked?.isBare && !isFirst) { showTask(linked.task); return; }
  field("message").value = held.message;
  field(`kind-${held.kind}`).checked = true;
  field(`profile-${held.form}`).checked = true;
  chooseSize(held.size);
  chooseParts(held.parts, held.part);
  field("grid").value = held.grid ? gridText(held.grid) : "";
  readGrid();
  const count = (/** @type {Mark} */ it) => there(it.modules).length;
  inTurn(read, (it) => spoil(it, held.gridDamage(count(it)), held.gridDoubtful(count(it)), held.gridLimit));
  showTask(held.task, held.pane);
  writeMessage();
  inTurn(write, (it) => spoil(it, held.damage(count(it)), held.doubtful(count(it)), held.limit));
  await Promise.all([read.turn, write.turn]);
}

// ---- Wiring

/** @type {(task: string, pane?: "write" | "read") => void} */
export function chooseTask(task, pane = undefined) {
  beginEntry();
  showTask(task, pane);
  tellLink();
}
const FORM_FIELDS = FORMS.map((form) => `profile-${form}`);
/** @type {Record<string, (k: number) => number>} to which tab a key leads from one */
const KEY_STEPS = { ArrowLeft: (k) => k + TASKS.length - 1, ArrowRight: (k) => k + 1, Home: () => 0,
  End: () => TASKS.length - 1 };
function wireTabs() {
  for (const [k, task] of TASKS.entries()) {
    $(`tab-${task}`).addEventListener("click", () => chooseTask(task));
    $(`tab-${task}`).addEventListener("keydown", (event) => {
      const step = KEY_STEPS[event.key];
      if (!step) return;
      event.preventDefault();
      const other = TASKS[step(k) % TASKS.length];
      chooseTask(other);
      $(`tab-${other}`).focus();
    });
  }
  $("learn-write").addEventListener("change", () => chooseTask("learn", "write"));
  $("learn-read").addEventListener("change", () => chooseTask("learn", "read"));
}
function wireMessage() {
  whenShown((task) => { if (task === "make") fitHeight(field("message")); }); // which has no height out of sight
  addEventListener("resize", () => fitHeight(field("message")));
  $("message").addEventListener("input", () => writeMessage());
  $("message").addEventListener("keydown", (event) => {
    if (event.key !== "Enter" || event.shiftKey || event.isComposing || kindNow() === "text") return;
    event.preventDefault(); // what is typed has its symbol already; a line break is Shift Enter
    $("save-png").focus();
  });
  for (const id of [...FORM_FIELDS, "kind-typed", "kind-text", "kind-message", "shape", "size"])
    $(id).addEventListener("change", () => writeMessage());
  wireParts(writeMessage);
  $("shape").addEventListener("change", showChoice);
  for (const button of allOf("[data-message]")) {
    button.addEventListener("click", () => enterMessage(button.dataset.message));
  }
}
export function wireSource() {
  wireTabs();
  wireMessage();
  $("grid").addEventListener("input", enterGrid);
  for (const [id, text] of Object.entries({ c40: C40, turned: TURNED, edifact: EDIFACT }))
    $(`example-${id}`).addEventListener("click", () => { field("grid").value = text; readGrid(); });
  $("take-written").addEventListener("click", readWritten);
}
