// The parts of messages that several symbols say together (structured append), put together as they are read.
import { there } from "./common.mjs";
import { $, made, setUsable, whenUsed } from "./dom.mjs";
import { redraw } from "./redraw.mjs";
import { readable, typed } from "./gs1.mjs";
import { keepSoon, kept } from "./kept.mjs";
import { isSameContent, nameOfFile, partOf, together } from "./contents.mjs";
import { VALID, mark, store } from "./state.mjs";
import { copyText, contentRead } from "./taking.mjs";

/** @typedef {import("./contents.mjs").Content} Content */
/** @type {Map<string, Map<number, Content>>} the parts of each file, by their numbers */
const files = new Map();
const KEPT = "parts";
const keepParts = () => keepSoon(KEPT, () => (files.size
  ? JSON.stringify([...files].map(([name, parts]) => [name, [...parts]])) : ""));
// Brings back the parts that were kept.
export function bringParts() {
  try {
    for (const [name, parts] of JSON.parse(kept(KEPT) || "[]")) files.set(name, new Map(parts));
  } catch { files.clear(); } // of another version of the page
}

// Keeps what is read, if it is a part. One with another content than before is of another file, which begins with it.
/** @type {(content: Content) => void} */
export function gather(content) {
  const part = partOf(content);
  if (!part) return;
  const name = nameOfFile(part), known = files.get(name), before = known?.get(part.part);
  const own = known && (!before || isSameContent(before, content)) ? known : new Map();
  const { items, marks, head } = content;
  files.set(name, own.set(part.part, { items, marks, head }));
  keepParts();
}
// Keeps what is read of several symbols, and shows what that changes.
/** @type {(contents: Content[]) => void} */
export function gatherAll(contents) {
  for (const content of contents) gather(content);
  if (contents.some(partOf)) redraw();
}
// Which parts of a message are missing, in words.
/** @type {(part: import("./contents.mjs").Part) => string} */
export function missingWords(part) {
  const own = files.get(nameOfFile(part)) ?? new Map(), all = Array.from({ length: part.parts }, (_, k) => k + 1);
  const missing = all.filter((number) => !own.has(number)), { length } = missing;
  return length ? `Not read yet: ${length > 1 ? "parts" : "part"} ${missing.join(", ")}.` : "All parts are read.";
}
// What all parts of a file say together, or null while one is missing.
/** @type {(part: import("./contents.mjs").Part) => Content | null} */
function wholeOf(part) {
  const own = files.get(nameOfFile(part)) ?? new Map();
  const contents = Array.from({ length: part.parts }, (_, k) => own.get(k + 1));
  return contents.every(Boolean) ? together(contents) : null;
}
// The part that is at hand where symbols are read, or null.
function partAtHand() {
  const { seen, stage } = mark(), content = seen && stage === VALID && store.task === "read" ? contentRead(seen) : null;
  return content && partOf(content);
}
/** @type {(part: import("./contents.mjs").Part) => Node[]} */
function partsShown(part) {
  const own = files.get(nameOfFile(part)) ?? new Map();
  return Array.from({ length: part.parts }, (_, k) => {
    const content = own.get(k + 1), text = content ? readable(content) || "empty" : "not read yet";
    const words = made(content ? "code" : "span", { textContent: text });
    const item = made("li", { className: content ? "" : "missing" }, words);
    if (k + 1 === part.part) item.setAttribute("aria-current", "true");
    return item;
  });
}
export function drawGathered() {
  const part = partAtHand(), isPart = part !== null, whole = isPart ? wholeOf(part) : null;
  $("gathered").hidden = !isPart;
  if (!isPart) { $("gathered-are").replaceChildren(); $("whole").textContent = ""; return; }
  const count = files.get(nameOfFile(part))?.size ?? 0;
  const read = whole ? "all are read" : `${count} of them read`;
  $("gathered-title").textContent = `A message in ${part.parts} symbols: ${read}`;
  $("gathered-are").replaceChildren(...partsShown(part));
  $("whole").textContent = whole ? readable(whole) || "the empty message" : "";
  $("whole").hidden = !whole;
  setUsable("copy-whole", whole !== null);
}
export function wireGathered() {
  whenUsed("copy-whole", () => copyText(typed(there(wholeOf(there(partAtHand())))), "Copied: the whole message"));
  $("forget-parts").addEventListener("click", () => {
    const part = there(partAtHand()), content = there(contentRead(there(mark().seen)));
    files.delete(nameOfFile(part));
    keepParts();
    gatherAll([content]);
  });
}
