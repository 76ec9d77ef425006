// Looking at pictures, one or several in order. While one is looked at the pane goes on as it is; what is entered
// meanwhile wins.
import { bitmapOf } from "./bitmap.mjs";
import { plural, shapeWords } from "./common.mjs";
import { $, field, hint } from "./dom.mjs";
import { desks, showTask, take } from "./flow.mjs";
import {
  addPicture, beginPictures, choose, clearSights, isKeepingSights, isShown, keepingSights, lettingSightsStand,
  showSights,
} from "./found.mjs";
import { gridText } from "./grids.mjs";
import { beginEntry } from "./link.mjs";
import { SOON, brokenWords, clear, enter, isBroken, refuse, whenEntered } from "./order.mjs";
import { panes } from "./state.mjs";
import { drawnSvg } from "./svg.mjs";
import { stood } from "./words.mjs";

/** @typedef {import("./pictures.mjs").Sighted} Sighted */
/** @typedef {{ files: File[], note: string, at: number, isStopped: boolean, isTold: boolean, progress: string }} Batch
    of pictures, how many of these were looked at, and whether it is told how far that is */
const LIKEST = " What looks most like one is outlined, and listed with the reason.";
const REMEDY = "Take it from nearer, straight from above, sharp and without glare; or enter its grid as text.";
const SHOWN_LENGTH = 560; // of a picture, in pixels of style sheets, of which a screen has several
const LONGER = { time: 30000, most: 400 }; // milliseconds, and symbols, if a picture is looked at longer
/** @type {{ time?: number }} milliseconds for a picture or a drawing, if not the usual ones: none by the clock where
    infinite */
export const limits = {};

/** @type {(file: Blob) => boolean} */
const isSvg = (file) => file.type === "image/svg+xml";
/** @type {(file: Blob) => any} */
function questionOf(file) {
  if (isSvg(file)) return drawnSvg(file, limits.time);
  return desks.readsFiles ? { file } : bitmapOf(file, true);
}
/** @type {(file: Blob, lane: string, how?: { kind?: string, more?: any, tell?: any }) => Promise<any>} */
export async function lookAt(file, lane, { kind = "picture", more = null, tell = null } = {}) {
  const shown = Math.ceil(SHOWN_LENGTH * devicePixelRatio);
  const question = { shown, ...limits, ...await questionOf(file) }, { why, bitmap, picture } = question;
  const given = more ? more(question) : question, transfer = [bitmap, picture?.data.buffer].filter(Boolean);
  return why ? { why } : desks.pictures.ask(kind, given, lane, { transfer, tell });
}
// Asks what stands in a frame of the camera.
/** @type {(given: { bitmap: ImageBitmap, isOpaque: boolean, most: number, time: number }, lane: string) =>
    Promise<any>} */
export const askFrame = (given, lane) => desks.pictures.ask("picture", given, lane, { transfer: [given.bitmap] });
/** @type {{ pictures: number, last: Batch | null }} how many are being looked at, and what was given last */
export const pending = { pictures: 0, last: null };

// Reads what stands in pictures. A picture by itself shows its first symbol as soon as it is found; several are looked
// at one after the other, and listed as they are.
/** @type {(files: File[], note?: string) => Promise<void>} */
export async function readPictures(files, note = "") {
  /** @type {Batch} */
  const batch = { files, note, at: 0, isStopped: false, isTold: false, progress: "" };
  beginEntry();
  showTask("read");
  pending.last = batch;
  pending.pictures++;
  const telling = setTimeout(tellFromNow, SOON, batch); // what is read by then is drawn once
  const isTaken = await lettingSightsStand(() => enterPictures(batch));
  clearTimeout(telling);
  batch.isTold = true;
  const name = files.length > 1 ? "The pictures were" : `${nameOf(batch)} was`;
  if (isTaken && files.length > 1) await takeOthers(batch);
  else if (!isTaken && pending.last === batch)
    hint("picture-hint", `${name} given up, since something else was entered meanwhile.`);
}
/** @type {(batch: Batch) => Promise<boolean>} */
function enterPictures(batch) {
  const isOne = batch.files.length === 1, question = () => (isOne ? lookAtOne(batch) : untilRead(batch));
  const take = (/** @type {any} */ sights) => { if (isOne) takePicture(batch, sights); else takeFirst(batch, sights); };
  return enter(panes.read, () => question().finally(() => { pending.pictures--; }), take, false);
}
/** @type {(batch: Batch, at?: number) => string} */
const nameOf = ({ files, at }, own = at) => files[own].name || "The picture";
/** @type {(batch: Batch, progress?: string) => void} */
function tellProgress(batch, progress = "") {
  batch.progress = progress;
  if (pending.last !== batch || !batch.isTold) return;
  const { files, at } = batch, which = files.length > 1 ? ` (${at + 1} of ${files.length})` : "";
  hint("picture-hint", `Looking at ${nameOf(batch)}${which}${progress && `: ${progress}`}…`);
}
/** @type {(batch: Batch) => void} */
function tellFromNow(batch) {
  batch.isTold = true;
  tellProgress(batch, batch.progress);
}
/** @type {(batch: Batch, given?: object) => Promise<any>} */
const lookAtOne = (batch, given = {}) => lookAt(batch.files[batch.at], "picture",
  { tell: (/** @type {string} */ progress) => tellProgress(batch, progress),
    more: (/** @type {object} */ question) => ({ ...question, ...given }) });

// ---- Several pictures

// What stands in the next picture, all of it.
/** @type {(batch: Batch) => Promise<any>} */
async function lookAtNext(batch) {
  tellProgress(batch);
  const first = await lookAtOne(batch).catch((why) => ({ failed: why.message }));
  if (!first || isBroken(first) || !(first.left > 0) || first.isComplete) return first;
  const rest = await desks.pictures.ask("rest", null, "rest");
  return rest && !isBroken(rest) ? { ...rest, view: first.view } : first;
}
// Looks at the next picture, and lists what stands in it; whether that is to go on.
/** @type {(batch: Batch) => Promise<any>} */
async function listNext(batch) {
  const sights = await lookAtNext(batch), file = batch.files[batch.at];
  if (!sights || pending.last !== batch) return null;
  batch.isStopped = Boolean(sights.stopped);
  if (batch.isStopped) return sights;
  const why = isBroken(sights) ? brokenWords(sights) : sights.symbols?.length ? "" : sights.why;
  await keepingSights(() => addPicture({ name: nameOf(batch), why, ...sights, file }));
  batch.at++;
  retire(sights);
  return sights;
}
/** @type {(batch: Batch) => boolean} */
const hasNext = (batch) => pending.last === batch && !batch.isStopped && batch.at < batch.files.length;
// Looks at pictures until something is read in one.
/** @type {(batch: Batch) => Promise<any>} */
async function untilRead(batch) {
  beginPictures();
  let sights = null;
  while (hasNext(batch) && !sights?.symbols?.length) sights = await listNext(batch);
  return sights;
}
/** @type {(batch: Batch, sights: any) => void} */
function takeFirst(batch, sights) {
  const symbol = sights?.symbols?.[0];
  if (symbol) { choose(symbol); return; }
  const why = `Nothing was read in ${plural(batch.at, "picture", "pictures")}.`;
  panes.read.empty();
  keepingSights(() => refuse(panes.read, `${why} ${REMEDY}`));
}
/** @type {(batch: Batch) => Promise<void>} */
async function takeOthers(batch) {
  pending.pictures++;
  while (hasNext(batch)) await listNext(batch);
  pending.pictures--;
  if (pending.last !== batch) return;
  const left = batch.files.length - batch.at, looked = `${plural(batch.at, "picture is", "pictures are")} looked at`;
  hint("picture-hint", `${looked}${left ? `; ${left} not, since it was stopped` : ""}.${batch.note}`);
}

// ---- One picture

/** @type {(symbol: any) => void} */
function takeSymbol(symbol) {
  const { modules, rows, columns, doubtful, limit, seen, quality } = symbol;
  field("grid").value = gridText(symbol);
  hint("grid-hint", "The grid of the picture.", false, "grid");
  take(panes.read, { modules, rows, columns, doubtful, limit, seen, quality });
}
/** @type {(batch: Batch, sights: any) => void} */
function takePicture(batch, sights) {
  const it = panes.read, { symbols = [], unread = [], view } = sights, name = nameOf(batch), { note } = batch;
  const symbol = symbols[0] ?? unread.find((/** @type {Sighted} */ { isExact }) => isExact);
  if (view) showSights(sights, symbol); else clearSights();
  if (!symbol) {
    const why = isBroken(sights) ? brokenWords(sights) : `${sights.why}${unread.length ? LIKEST : ""}`;
    hint("picture-hint", `${name}: ${why}${note}`, true);
    it.empty(); // what was read before isn't of this picture
    field("grid").value = "";
    keepingSights(() => refuse(it, isBroken(sights) ? "" : REMEDY));
  } else {
    hint("picture-hint", `${name}: ${pictureWords(symbol)}${sights.notes}${note}`);
    takeSymbol(symbol);
  }
  offerLonger(batch, sights);
  if (sights.left > 0 && !sights.isComplete) takeRest(batch, symbol); else retire(sights);
}
/** @type {(symbol: any) => string} */
function pictureWords(symbol) {
  const stands = symbol.how ? `The symbol is ${symbol.how}, and shown upright.` : "Read as it stands.";
  return `${shapeWords(symbol)}. ${symbol.isRead ? stands : stood(symbol, "")}`;
}
// All that stands in the picture that was looked at last.
/** @type {(batch: Batch, first: any) => Promise<void>} */
async function takeRest(batch, first) {
  const sights = await desks.pictures.ask("rest", null, "rest");
  if (!sights || isBroken(sights) || pending.last !== batch || (first && !isShown(first))) return;
  const begin = first?.corners[0];
  /** @type {(it: Sighted) => boolean} */
  const isFirst = ({ corners: [at] }) => begin && Math.hypot(at.x - begin.x, at.y - begin.y) < NEAR;
  showSights(sights, sights.symbols.find(isFirst) ?? null);
  if (sights.symbols.length > 1)
    hint("picture-hint", `${nameOf(batch)}: ${sights.symbols.length} symbols.${batch.note}`);
  offerLonger(batch, sights);
  retire(sights);
}
const NEAR = 3; // pixels
// The worker's memory never shrinks: after a large picture another worker begins.
/** @type {(sights: any) => void} */
const retire = ({ isLarge }) => { if (isLarge) desks.pictures.retire(); };

// Where the time was over before all was looked at, more of it is offered.
/** @type {(batch: Batch, sights: any) => void} */
function offerLonger(batch, { isComplete = true }) {
  $("looking-on").hidden = isComplete || pending.last !== batch;
}
async function lookLonger() {
  const batch = pending.last;
  if (!batch) return;
  $("looking-on").hidden = true;
  pending.pictures++;
  const looking = enter(panes.read, () => lookAtOne(batch, LONGER).finally(() => { pending.pictures--; }),
    (sights) => takePicture(batch, { ...sights, left: 0 }));
  tellProgress(batch);
  await looking;
}
export function wireLooking() {
  $("look-longer").addEventListener("click", lookLonger);
  whenEntered((it) => { if (it === panes.read && !isKeepingSights()) $("looking-on").hidden = true; });
}

// What was found before, by a list that was saved.
/** @type {(name: string, sights: import("./found.mjs").Sights, note: string) => void} */
export function takeSights(name, sights, note) {
  const [first] = [...sights.symbols, ...sights.unread];
  beginEntry();
  showTask("read");
  clearSights();
  showSights(sights);
  if (first) choose(first); else clear(panes.read);
  hint("picture-hint", `The list of ${name}.${note}`);
}
