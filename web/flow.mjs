// How a mark changes: by what is entered, and by damage. What is shown is always about what is entered: from the moment
// of a change the mark isn't valid, until the worker has answered about that very state.
import { there } from "./common.mjs";
import { Desk } from "./desk.mjs";
import { $, allOf, field, folded } from "./dom.mjs";
import { redraw } from "./redraw.mjs";
import { gather } from "./gathered.mjs";
import { tellLink } from "./link.mjs";
import { brokenWords, inTurn, isBroken, refuse, validate, work } from "./order.mjs";
import { PANE_OF, TASKS, VALID, WORKING, isChanged, isDamaged, keepMap, mark, panes, store } from "./state.mjs";

/** @typedef {import("./state.mjs").Mark} Mark */
/** @typedef {import("./state.mjs").Step} Step */
/** @typedef {import("./common.mjs").Limit} Limit */
const MOST_ACTS = 500; // that can be undone

/** @type {{ quick: Desk, pictures: Desk, readsFiles: boolean }} whose workers read files, or not */
export const desks = /** @type {any} */ ({ readsFiles: true });
/** @type {(script: string, code: import("./desk.mjs").Code) => Promise<any>} */
export function openDesks(script, code) {
  desks.quick = new Desk(script, code);
  desks.pictures = new Desk(script, { ...code, isForPictures: true });
  return desks.quick.start();
}

// Another symbol was written or opened; where it was found, it has doubtful modules and a limit of its own.
/** @type {(it: Mark, symbol: import("./common.mjs").Grid & { content?: import("./contents.mjs").Content | null,
    doubtful?: Uint8Array | null, limit?: Limit, seen: any,
    quality?: import("./quality.mjs").Quality | null }) => void} */
export function take(it, { content = null, doubtful = null, limit, seen, quality = null, ...grid }) {
  it.hold(grid, content, doubtful, quality);
  keepMap(seen, seen.map);
  if (limit !== undefined) [it.limit, it.limitWhy] = [limit, ""];
  else if (it.limit !== null) { it.seen = seen; look(it); return; }
  validate(it, seen);
  if (it === panes.read && !seen.answer.fault) gather(seen.answer);
  if (it === mark()) { field("which-undamaged").checked = true; redraw(); }
  tellLink();
}

// What the worker is told of a symbol as it is now.
/** @type {(it: Mark) => any} */
const asked = ({ modules, rows, columns, doubtful, limit }) =>
  ({ grid: { modules, rows, columns }, doubtful, limit });
// Asks what is read of the modules as they are now. During a drag older answers are drawn too, but aren't valid.
/** @type {(it: Mark) => void} */
export function look(it) {
  it.looking = looked(it);
}
/** @type {(it: Mark) => Promise<void>} */
async function looked(it) {
  const own = work(it), { entered } = it;
  const seen = await desks.quick.ask("look", asked(it), `look ${it.name}`);
  if (!seen || it.entered !== entered) return;
  if (isBroken(seen)) { if (it.changed === own) refuse(it, brokenWords(seen)); return; }
  if (it.changed === own) validate(it, seen); else if (it.stage !== WORKING) return;
  it.seen = seen;
  if (it === mark()) redraw();
  if (it.stage === VALID) tellLink();
}

// ---- Acts: each is one step that can be undone

/** @type {(it: Mark) => void} */
export function begin(it) {
  it.past.push(it.step());
  if (it.past.length > MOST_ACTS) it.past.shift();
  it.future = [];
}
/** @type {(a: Uint8Array, b: Uint8Array) => boolean} */
const differ = (a, b) => a.some((module, k) => module !== b[k]);
/** @type {(it: Mark, from: Step[], to: Step[]) => void} */
function goBack(it, from, to) {
  if (!from.length) return;
  to.push(it.step());
  it.goTo(there(from.pop()));
  look(it);
}
export const undo = () => inTurn(mark(), (it) => goBack(it, it.past, it.future));
export const redo = () => inTurn(mark(), (it) => goBack(it, it.future, it.past));
export const undoAll = () => inTurn(mark(), (it) => {
  if (!isChanged(it)) return;
  begin(it);
  it.goTo({ modules: there(it.original).slice(), doubtful: it.doubted });
  look(it);
});
// Tells the reader that all that was turned over is doubtful.
export const doubtDamage = () => inTurn(mark(), (it) => {
  if (!isDamaged(it)) return;
  begin(it);
  const original = there(it.original), { doubtful } = it;
  it.doubtful = there(it.modules).map((module, k) => (doubtful?.[k] || module !== original[k] ? 1 : 0));
  look(it);
});

// Damage by the buttons, which the worker chooses.
/** @type {(what: string) => void} */
export const damage = (what) => inTurn(mark(), (it) => damageNow(it, what));
/** @type {(it: Mark, what: string) => Promise<void>} */
async function damageNow(it, what) {
  work(it);
  const { entered } = it, original = it.content ? it.original : null;
  const seen = await desks.quick.ask("damage", { act: what, original, ...asked(it) }, `damage ${it.name}`);
  if (it.entered !== entered) return;
  if (isBroken(seen)) { refuse(it, brokenWords(seen)); return; }
  if (differ(seen.modules, there(it.modules))) begin(it);
  validate(it, seen);
  it.modules = seen.modules.slice();
  if (it === mark()) redraw();
  tellLink();
}
/** @type {(it: Mark, limit: Limit, limitWhy?: string) => void} */
export function setLimit(it, limit, limitWhy = "") {
  it.limit = limit;
  it.limitWhy = limitWhy;
  look(it);
}

// ---- The task that is open

/** @type {((task: string) => void)[]} */
const showing = [];
/** @type {(listener: (task: string) => void) => void} */
export const whenShown = (listener) => { showing.push(listener); };
/** @type {Record<string, boolean>} */
const areDetailsOpen = { read: false, make: false, learn: true }; // as they were left in each task
let isOpen = false; // whether a task is shown yet

// Opens a task; what is learnt is about the symbol that was at hand, unless another is named.
/** @type {(task: string, pane?: "write" | "read") => void} */
export function showTask(task, pane = PANE_OF[task] ?? store.pane) {
  const isOther = !isOpen || store.task !== task || store.pane !== pane;
  isOpen = true;
  store.task = task;
  store.pane = pane;
  document.body.dataset.task = task;
  for (const each of TASKS) {
    $(`tab-${each}`).setAttribute("aria-selected", String(each === task));
    $(`tab-${each}`).tabIndex = each === task ? 0 : -1;
  }
  for (const node of allOf("[data-for]")) node.hidden = node.dataset.for !== task;
  field(`learn-${pane}`).checked = true;
  folded("details").open = areDetailsOpen[task];
  $("symbol").setAttribute("role", task === "learn" ? "application" : "img");
  $("symbol").tabIndex = task === "learn" ? 0 : -1;
  for (const listener of showing) listener(task);
  if (isOther) redraw();
}
export function wireDetails() {
  $("details").addEventListener("toggle", () => { areDetailsOpen[store.task] = folded("details").open; });
}
