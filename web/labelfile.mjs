// A list of labels with all that says how they look, kept in a file: by itself, and in each file of labels that the
// page saves, so that any of these can be opened again.
import { field } from "./dom.mjs";
import { keepSoon, kept } from "./kept.mjs";
import { columnsMeanNow, isCsv, listChanged, listText, setListText, takeMeaning, whenListed } from "./lines.mjs";
import { chooseParts } from "./parts.mjs";
import { chooseSize, sizeChosen } from "./sizes.mjs";
import { keptIn } from "./pdf.mjs";
import { filesIn } from "./zip.mjs";

/** @typedef {{ labels: number, messages: string, columns: import("./csv.mjs").Meaning | null, size: string,
    choices: Record<string, string | boolean> }} Labels of a version of this form */
const VERSION = 1, NAME = "labels.json", KEPT = "labels";
const CHOICES = ["lines-as", "stock", "paper-size", "millimetres", "label-width", "label-height", "copies", "quiet",
  "pixels"];
const LENGTHS = ["millimetres", "label-width", "label-height"];
const CHOSEN = ["kind-typed", "kind-text", "kind-message", "profile-0", "profile-1", "profile-2"];
const HAS_TEXT = "label-text", PARTS = "parts";

/** @type {() => Labels} */
function labelsNow() {
  const checked = [HAS_TEXT, ...CHOSEN].map((id) => [id, field(id).checked]);
  const choices = [...[...CHOICES, PARTS].map((id) => [id, field(id).value]), ...checked];
  return { labels: VERSION, messages: listText(), columns: isCsv() ? columnsMeanNow() : null,
    size: sizeChosen(), choices: Object.fromEntries(choices) };
}
export const labelsText = () => `${JSON.stringify(labelsNow(), null, 1)}\n`;
// Keeps the list as it is, and brings back the one that was kept.
export function wireKeptLabels() {
  const labels = labelsIn(new TextEncoder().encode(kept(KEPT)));
  if (labels) takeLabels(labels);
  whenListed(() => keepSoon(KEPT, labelsText));
}
/** @type {() => { name: string, bytes: Uint8Array }} */
export const labelsFile = () => ({ name: NAME, bytes: new TextEncoder().encode(labelsText()) });

// ---- Opened again

const PDF_START = "%PDF-", ZIP_START = "PK\u0003\u0004";
/** @type {(name: string) => boolean} */
export const mayBeSaved = (name) => /\.(json|pdf|zip)$/i.test(name);
// Whether a file has nothing else that is taken.
/** @type {(name: string) => boolean} */
export const hasLabelsAlone = (name) => /\.(pdf|zip)$/i.test(name);
// The text of the list that a file holds, or "".
/** @type {(bytes: Uint8Array) => string} */
function textIn(bytes) {
  const start = String.fromCharCode(...bytes.subarray(0, 5));
  if (start.startsWith(ZIP_START)) {
    const own = filesIn(bytes).find(({ name }) => name === NAME);
    return own ? new TextDecoder().decode(own.bytes) : "";
  }
  return start === PDF_START ? keptIn(bytes, "Labels") : new TextDecoder().decode(bytes);
}
/** @type {(it: any) => boolean} */
const areLabels = (it) => it?.labels === VERSION && typeof it.messages === "string" && typeof it.size === "string"
  && typeof it.choices === "object" && it.choices !== null;
// The list of labels that a file holds, or null.
/** @type {(bytes: Uint8Array) => Labels | null} */
export function labelsIn(bytes) {
  try {
    const labels = JSON.parse(textIn(bytes));
    return areLabels(labels) ? labels : null;
  } catch { return null; }
}
// Chooses a value, if it is one that can be chosen.
/** @type {(id: string, value: any) => void} */
function chooseValue(id, value) {
  const it = field(id), had = it.value;
  if (typeof value !== "string") return;
  it.value = value;
  const isNone = LENGTHS.includes(id) && !/^\d{1,3}([.,]\d{1,4})?$/.test(value);
  if (it.value !== value || !it.checkValidity() || isNone) it.value = had;
}
/** @type {(labels: Labels) => void} */
export function takeLabels({ messages, columns, size, choices }) {
  for (const id of CHOICES) chooseValue(id, choices[id]);
  for (const id of CHOSEN) if (choices[id] === true) field(id).checked = true;
  field(HAS_TEXT).checked = choices[HAS_TEXT] !== false;
  chooseSize(size);
  chooseParts(Number(choices[PARTS] ?? 1), 1);
  field("stock").dispatchEvent(new Event("change"));
  setListText(messages);
  listChanged();
  if (columns && isCsv()) takeMeaning(columns);
}
