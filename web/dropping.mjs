// Pasting and dropping: pictures, files of text, and text. What is too much for a field isn't let into it, since even
// to lay it out takes long.
import { decoded } from "./coding.mjs";
import { MOST_OF_SHEET, MOST_TEXT } from "./common.mjs";
import { $, field, fieldOf, folded, hint } from "./dom.mjs";
import { desks, showTask } from "./flow.mjs";
import { isGrid } from "./grids.mjs";
import { hasLabelsAlone, labelsIn, mayBeSaved, takeLabels } from "./labelfile.mjs";
import { listChanged, setListText } from "./lines.mjs";
import { beginEntry } from "./link.mjs";
import { listIn } from "./listed.mjs";
import { tooMuch } from "./messages.mjs";
import { keptIn } from "./pdf.mjs";
import { readPictures, takeSights } from "./looking.mjs";
import { readGrid, writeMessage } from "./source.mjs";
import { panes } from "./state.mjs";
import { toast } from "./taking.mjs";

/** @typedef {{ pictures?: File[], file?: File, text?: string, note?: string, why?: string }} Brought */
const BYTES = 4; // of a character, at most
const MOST_BYTES_OF_SAVED = 5e7; // of a file that the page saved, and that is opened again
/** @type {(file: File) => boolean} */
const isPicture = ({ type }) => type.startsWith("image/");
/** @type {(file: File) => boolean} */
const isText = ({ type, name }) => type.startsWith("text/") || (!type && /\.(txt|csv|grid)$/i.test(name));
/** @type {(file: { name: string }) => boolean} */
const isCsvFile = ({ name }) => /\.csv$/i.test(name);
/** @type {(file: File) => boolean} */
const isTextOrSaved = (file) => isText(file) || mayBeSaved(file.name);

// What is dropped or pasted: the pictures, or else the first file of text, or else the text; and a note on what isn't
// looked at.
/** @type {(list: DataTransfer | null, isTaken?: (file: File) => boolean) => Brought} */
export function broughtBy(list, isTaken = isText) {
  const files = [...(list?.files ?? [])], pictures = files.filter(isPicture), file = files.find(isTaken);
  const text = list?.getData("text") ?? "", count = files.length.toLocaleString("en");
  const left = files.filter((each) => !isPicture(each));
  if (pictures.length) return { pictures, note: leftWords(left) };
  const others = files.length > 1 ? ` It is one of ${count} files, and the others aren’t looked at.` : "";
  if (file) return { file, note: others };
  if (!text && files.length) return { why: noneOf(files[0]) };
  return { text };
}
// That files which are no pictures aren't looked at, in words, or "".
/** @type {(files: File[]) => string} */
const leftWords = (files) => (files.length
  ? ` ${files.slice(0, MOST_NAMED).map(leftOf).join(" ")}${files.length > MOST_NAMED ? " …" : ""}` : "");
/** @type {(file: File) => string} */
const leftOf = (file) => (isPdf(file) ? noneOf(file) : `${file.name} isn’t looked at.`);
const MOST_NAMED = 3;
/** @type {(file: File) => string} */
const noneOf = (file) => `${file.name} is ${isPdf(file) ? PDF_WORDS : "neither a picture nor a text."}`;
const PDF_WORDS = "a PDF, which isn’t read here: save its pages as pictures, or take pictures of the screen.";
/** @type {(file: File) => boolean} */
const isPdf = ({ name, type }) => type === "application/pdf" || /\.pdf$/i.test(name);
// The text of a file, with a note on how it is read; or why it isn't taken.
/** @type {(file: File, most?: number) => Promise<{ text?: string, note?: string, why?: string }>} */
export async function textOfFile(file, most = MOST_TEXT) {
  const bytes = file.size.toLocaleString("en"), what = most === MOST_TEXT ? "a message or a grid" : "a sheet";
  if (file.size > BYTES * most) return { why: `${file.name} has ${bytes} bytes, which are too many for ${what}.` };
  const { text: all, note } = decoded(new Uint8Array(await file.arrayBuffer()));
  const text = all.replace(/\r?\n$/, ""), much = tooMuch(text, most);
  return much ? { why: `${file.name}: ${much}` } : { text, note };
}

// Lets no more into a field than it takes, where that comes from outside; `refuse` says so.
/** @type {(area: HTMLInputElement | HTMLTextAreaElement, refuse: (why: string) => void, most?: number) => void} */
export function bound(area, refuse, most = MOST_TEXT) {
  area.addEventListener("beforeinput", (event) => {
    const { data, dataTransfer } = /** @type {InputEvent} */ (event);
    const { value, selectionStart: from, selectionEnd: to } = area;
    const more = data ?? dataTransfer?.getData("text");
    const much = more && tooMuch(value.slice(0, from ?? 0) + more + value.slice(to ?? 0), most);
    if (!much) return;
    event.preventDefault();
    refuse(`Nothing was taken: ${much}`);
  });
}

// ---- In the page as a whole

/** @type {(text: string) => void} */
function takeGridText(text) {
  beginEntry();
  field("grid").value = text;
  showTask("read");
  readGrid();
}
/** @type {(text: string) => void} */
function takeText(text) {
  if (isGrid(text)) { takeGridText(text); return; }
  showTask("make");
  field("message").value = text;
  writeMessage();
}
/** @type {(area: HTMLInputElement, text: string) => void} */
function insert(area, text) {
  area.setRangeText(text, area.selectionStart ?? 0, area.selectionEnd ?? 0, "end");
  area.dispatchEvent(new Event("input", { bubbles: true }));
}
/** @type {(why: string) => void} */
function refuseBrought(why) {
  showTask("read");
  hint("picture-hint", why, true);
}
// What is entered now: another text as soon as something else is.
const entered = () => [panes.write.entered, panes.read.entered, field("messages").value].join();
// A file of CSV goes on the sheet, wherever it is dropped or opened.
/** @type {(file: File, others: string, isOnSheet?: boolean) => Promise<void>} */
async function takeFile(file, others, isOnSheet = false) {
  const isSheet = isOnSheet || isCsvFile(file);
  const before = entered(), { labels = null, sights = null, grid = "" } = await heldBy(file);
  const most = isSheet ? MOST_OF_SHEET : MOST_TEXT;
  const { text = "", why = "", note: coding = "" } = labels || sights || grid ? { text: "", why: "" }
    : await textAlone(file, most);
  const note = `${coding}${others}`;
  if (entered() !== before) toast(`${file.name} was given up, since something else was entered meanwhile.`);
  else if (labels) openLabels(file.name, labels, note);
  else if (sights) takeSights(file.name, sights, note);
  else if (grid) takeGridText(grid);
  else if (isSheet) takeLines(file, text, why, note);
  else if (why) refuseBrought(why);
  else takeText(text);
  if (note && !isSheet && !why) toast(`${file.name}:${note}`);
}
// What a file holds that the page saved: a list of labels, one of what was found, or the grid of one symbol.
/** @type {(file: File) => Promise<{ labels?: import("./labelfile.mjs").Labels | null, sights?: any,
    grid?: string }>} */
async function heldBy(file) {
  if (!mayBeSaved(file.name) || file.size > MOST_BYTES_OF_SAVED) return {};
  const bytes = new Uint8Array(await file.arrayBuffer()), labels = labelsIn(bytes), grid = keptIn(bytes, "Grid");
  const list = labels ? null : listIn(bytes), sights = list && await desks.quick.ask("again", list, "found");
  return { labels: labels && !tooMuch(labels.messages, MOST_OF_SHEET) ? labels : null, grid: isGrid(grid) ? grid : "",
    sights: sights?.symbols ? sights : null };
}
// The text of a file that has no list of labels, or why it isn't taken.
/** @type {(file: File, most: number) => Promise<{ text?: string, note?: string, why?: string }>} */
const textAlone = async (file, most) =>
  (!hasLabelsAlone(file.name) ? textOfFile(file, most)
    : { why: isPdf(file) && most === MOST_TEXT ? noneOf(file) : `${file.name} holds no labels of this page.` });
// The list that a file holds takes the place of the one on the sheet, with how its labels look.
/** @type {(name: string, labels: import("./labelfile.mjs").Labels, note: string) => void} */
function openLabels(name, labels, note) {
  showTask("make");
  folded("sheet").open = true;
  takeLabels(labels);
  writeMessage();
  hint("sheet-hint", `The labels of ${name}.${note}`, false, "messages");
}
// The lines of a file take the place of those that stand on the sheet.
/** @type {(file: { name: string }, text: string, why: string, note: string) => void} */
function takeLines({ name }, text, why, note) {
  showTask("make");
  folded("sheet").open = true;
  if (!why) {
    setListText(text);
    field("lines-as").value = isCsvFile({ name }) ? "csv" : "messages";
    listChanged();
  }
  hint("sheet-hint", why || `The lines of ${name}.${note}`, Boolean(why), "messages");
}
/** @type {(event: ClipboardEvent) => void} */
function pasted(event) {
  if (event.defaultPrevented) return;
  const { pictures, file, text, note = "" } = broughtBy(event.clipboardData, isTextOrSaved);
  const isMessage = event.target === $("message");
  if (pictures) { event.preventDefault(); readPictures(pictures, note); return; }
  if (file) { event.preventDefault(); takeFile(file, note, event.target === $("messages")); return; }
  if (!isMessage || !text || !isGrid(text) || text.trim().length < 100) return;
  event.preventDefault(); // a grid that is pasted as a message is taken as a grid
  takeGridText(text);
}
/** @type {(event: DragEvent) => void} */
function dropped(event) {
  document.body.classList.remove("over");
  if (event.defaultPrevented) return;
  event.preventDefault();
  const { pictures, file, text = "", note = "", why } = broughtBy(event.dataTransfer, isTextOrSaved);
  const { target } = event, isSheet = target === $("messages");
  const much = text && tooMuch(text, isSheet ? MOST_OF_SHEET : MOST_TEXT);
  if (pictures) readPictures(pictures, note);
  else if (file) takeFile(file, note, isSheet);
  else if (why) refuseBrought(why);
  else if (much) hint(isSheet ? "sheet-hint" : "message-hint", `Nothing was taken: ${much}`, true);
  else if (isSheet || (target === $("message") && !isGrid(text))) insert(fieldOf(event), text);
  else if (text) takeText(text);
}
/** @type {(id: string, take: (files: File[]) => any) => void} */
const whenOpened = (id, take) => $(id).addEventListener("change", (event) => {
  const area = fieldOf(event), files = [...area.files ?? []];
  Promise.resolve(files.length ? take(files) : null).finally(() => { area.value = ""; }); // so that each can come again
});
/** @type {(files: File[]) => Promise<void>} */
async function openPictures(files) {
  const pdf = files.find(isPdf), pictures = files.filter((file) => !isPdf(file));
  if (pictures.length) await readPictures(pictures, leftWords(pdf ? [pdf] : []));
  else if (pdf) await takeFile(pdf, "");
}
export function wireDropping() {
  document.addEventListener("paste", pasted);
  addEventListener("dragover", (event) => { event.preventDefault(); document.body.classList.add("over"); });
  addEventListener("dragleave", (event) => { if (!event.relatedTarget) document.body.classList.remove("over"); });
  addEventListener("drop", dropped);
  for (const name of ["message", "grid"]) bound(field(name), (why) => hint(`${name}-hint`, why, true));
  bound(field("messages"), (why) => hint("sheet-hint", why, true), MOST_OF_SHEET);
  whenOpened("lines", ([file]) => takeFile(file, "", true));
  whenOpened("saved", ([file]) => takeFile(file, ""));
  whenOpened("picture", openPictures);
}
