// The link: a fragment that holds the task and what is entered. It begins with the task: read, make or learn. Its
// fields: message, as, profile, size, parts, part, damage, doubtful; grid, grid-damage, grid-doubtful; border and
// grid-border; and pane, which says whose symbol is learnt about. The browser keeps it with each entry of its history,
// and in its storage, so that reload and Back bring it back. In the address stands the task alone, but for a link that
// was copied: so no message goes where the browser lists or syncs addresses.
import { ASCII, MOST_TEXT, SHORTER, SMALLEST, limitIn } from "./common.mjs";
import { field } from "./dom.mjs";
import { ageNow, isKeeping, keep, kept } from "./kept.mjs";
import { partNow, partsNow } from "./parts.mjs";
import { isSize, sizeChosen } from "./sizes.mjs";
import { PANE_OF, TASKS, VALID, WORKING, damageOf, doubtsOf, isDamaged, panes, store } from "./state.mjs";
import { noLimit } from "./words.mjs";

/** @typedef {import("./common.mjs").Grid} Grid */
const LONGEST = 300000; // characters of a fragment that is looked at: more than all that can be entered takes
const LINK_AFTER = 150, LINK_AGAIN = 2000; // milliseconds: browsers bound how often an address may change

// A set of places in a symbol, as the gaps between them in base 36.
/** @type {(places: number[]) => string} */
const gapsOf = (places) => places.map((place, k) => (place - (k ? places[k - 1] : -1) - 1).toString(36)).join(".");
/** @type {(gaps: string | null, count: number) => number[]} */
function placesOf(gaps, count) {
  const places = [];
  let at = -1;
  for (const gap of gaps ? gaps.split(".") : []) {
    at += parseInt(gap, 36) + 1;
    if (!/^[0-9a-z]{1,4}$/.test(gap) || at >= count) return [];
    places.push(at);
  }
  return places;
}
// Modules of 0 and 1 as letters for six each, row by row.
const LETTERS = "ABCDEFGHIJKLMNOPQRSTUVWXYZabcdefghijklmnopqrstuvwxyz0123456789-_";
// Before them a square has its side, and a rectangle its rows and columns, as 8.18.
/** @type {(grid: Grid) => string} */
export function lettersOf({ modules, rows, columns }) {
  /** @type {(at: number) => number} */
  const six = (at) => [0, 1, 2, 3, 4, 5].reduce((sum, bit) => 2 * sum + (modules[at + bit] ?? 0), 0);
  let text = "";
  for (let k = 0; k < modules.length; k += 6) text += LETTERS[six(k)];
  return `${rows === columns ? rows : `${rows}.${columns}.`}${text}`;
}
// Letters begin with digits too: a side has two or three, as their number says.
/** @type {(text: string) => Grid | null} */
export function fromLetters(text) {
  const [, down, across, rest] = /^(\d{1,3})\.(\d{1,3})\.([\w-]*)$/.exec(text) ?? [];
  if (down) return gridOf(Number(down), Number(across), rest);
  const sides = [2, 3].filter((digits) => /^\d+$/.test(text.slice(0, digits)));
  return sides.map((digits) => gridOf(+text.slice(0, digits), +text.slice(0, digits), text.slice(digits)))
    .find(Boolean) ?? null;
}
/** @type {(rows: number, columns: number, letters: string) => Grid | null} */
function gridOf(rows, columns, letters) {
  const count = rows * columns;
  if (!isSize({ rows, columns }) || letters.length !== Math.ceil(count / 6) || /[^\w-]/.test(letters)) return null;
  const sixOf = (/** @type {number} */ k) => LETTERS.indexOf(letters[Math.floor(k / 6)]);
  const modules = Uint8Array.from({ length: count }, (_, k) => (sixOf(k) >> (5 - (k % 6))) & 1);
  return { modules, rows, columns };
}

// Forms by their names. In links of earlier pages none is named where it is ASCII.
const FORM_NAMES = new Map([["shorter", SHORTER], ["smallest", SMALLEST]]);
/** @type {(text: string | null) => number} */
const countIn = (text) => (/^\d{1,2}$/.test(text ?? "") ? Number(text) : 1);

// Whether there is a symbol of what is entered.
/** @type {(it: import("./state.mjs").Mark) => boolean} */
const isThere = ({ stage, isEntering }) => stage === VALID || (stage === WORKING && !isEntering);
function fragment() {
  const { write, read } = panes, fields = new URLSearchParams();
  if (field("message").value.length <= MOST_TEXT) fields.set("message", field("message").value);
  if (!field("kind-message").checked) fields.set("as", field("kind-text").checked ? "text" : "typed");
  for (const [name, form] of FORM_NAMES) if (field(`profile-${form}`).checked) fields.set("profile", name);
  if (sizeChosen() !== "square") fields.set("size", sizeChosen());
  if (partsNow() > 1) fields.set("parts", String(partsNow()));
  if (partNow() > 1) fields.set("part", String(partNow()));
  if (isThere(write) && isDamaged(write)) fields.set("damage", gapsOf(damageOf(write)));
  if (isThere(write) && write.doubtful) fields.set("doubtful", gapsOf(doubtsOf(write)));
  if (write.limit !== null) fields.set("border", String(write.limit));
  if (isThere(read)) {
    fields.set("grid", lettersOf(read.undamaged()));
    if (isDamaged(read)) fields.set("grid-damage", gapsOf(damageOf(read)));
    if (read.doubtful) fields.set("grid-doubtful", gapsOf(doubtsOf(read)));
    if (read.limit !== null) fields.set("grid-border", String(read.limit));
  }
  if (store.task === "learn" && store.pane === "read") fields.set("pane", "read");
  return `#${[store.task, String(fields)].filter(Boolean).join("&")}`;
}
// What was kept or followed last, and how many links are being followed; the page's start counts as one.
let timer = 0, isNewEntry = false, own = "", followed = 1;
// Something has changed: what is kept follows soon. While the page restores a link it doesn't.
export function tellLink() {
  if (followed || timer) return;
  timer = setTimeout(writeLink, LINK_AFTER);
}
// What comes next is an entry of its own in the browser's history: from there Back leads to what is entered now.
export function beginEntry() {
  if (followed) return;
  writeLink();
  isNewEntry = true;
}
/** @typedef {{ link: string, age: string }} Entry of the browser's history */
/** @type {() => string} */
function linkOfEntry() {
  const { link = "", age = "" } = /** @type {Entry | null} */ (history.state) ?? {};
  return age === ageNow() ? link : "";
}
/** @type {(link: string, address: string) => void} */
function setEntry(link, address) {
  const entry = { link, age: ageNow() };
  try {
    if (isNewEntry) history.pushState(entry, "", address); else history.replaceState(entry, "", address);
  } catch { /* too many changes for the browser */ }
}
function writeLink() {
  clearTimeout(timer);
  timer = 0;
  if ("start" in document.body.dataset) { own = ""; return; } // nothing is entered yet
  const text = fragment();
  if (text !== own || linkOfEntry() !== text) {
    own = text;
    keep("page", text);
    setEntry(text, `#${store.task}`);
    if (linkOfEntry() !== text) { // later, and once the page is seen
      if (document.hidden) document.addEventListener("visibilitychange", writeLink, { once: true });
      else timer = setTimeout(writeLink, LINK_AGAIN);
      return;
    }
  }
  isNewEntry = false;
}
// Whether all that is entered is kept: for the tests; and what is.
export const isLinked = () => !timer && !followed && own === linkOfEntry() && !isKeeping();
export const linkKept = () => own;
// A link to what is entered now, which stands in the address from here on, until something changes.
export function linkNow() {
  writeLink();
  setEntry(own, own);
  return location.href.split("#")[0] + own;
}

// Which task a fragment is about. One that names none is of an earlier page, which showed damage with all else.
/** @type {(fields: URLSearchParams) => string} */
function taskOf(fields) {
  const isRead = fields.get("pane") === "read", shown = isRead ? ["grid-damage", "grid-border"] : ["damage", "border"];
  const named = TASKS.find((task) => fields.get(task) === "");
  return named ?? (shown.some((name) => fields.has(name)) ? "learn" : isRead ? "read" : "make");
}
// What a fragment holds, or null. If it names a task alone, that is all.
/** @type {(text: string) => any} */
export function fromFragment(text) {
  if (text.length < 2 || text.length > LONGEST) return null;
  const fields = new URLSearchParams(text.slice(1)), task = taskOf(fields);
  if (TASKS.includes(text.slice(1))) return { isBare: true, task, pane: PANE_OF[task] };
  if (!["message", "grid", "pane", ...TASKS].some((name) => fields.has(name))) return null;
  const limit = (/** @type {string} */ name) => {
    const text = fields.get(name) ?? "", value = limitIn(text);
    return { limit: value, why: text && value === null ? noLimit(text) : "" };
  };
  return {
    message: fields.get("message") ?? "",
    kind: ["typed", "text"].find((kind) => kind === fields.get("as")) ?? "message",
    form: FORM_NAMES.get(fields.get("profile") ?? "") ?? ASCII,
    size: fields.get("size") ?? "square",
    parts: countIn(fields.get("parts")),
    part: countIn(fields.get("part")),
    damage: (/** @type {number} */ count) => placesOf(fields.get("damage"), count),
    doubtful: (/** @type {number} */ count) => placesOf(fields.get("doubtful"), count),
    limit: limit("border"),
    grid: fromLetters(fields.get("grid") ?? ""),
    gridDamage: (/** @type {number} */ count) => placesOf(fields.get("grid-damage"), count),
    gridDoubtful: (/** @type {number} */ count) => placesOf(fields.get("grid-doubtful"), count),
    gridLimit: limit("grid-border"),
    task,
    pane: PANE_OF[task] ?? (fields.get("pane") === "read" ? "read" : "write"),
  };
}
// What is to be restored: what the address holds; or, if that is a task alone or nothing, what is kept with this entry
// of the history, or at the page's start, of the last visit.
/** @type {(isFirst: boolean) => string} */
function linkAsked(isFirst) {
  const { hash } = location, isBare = hash.length < 2 || TASKS.includes(hash.slice(1));
  const link = (isBare && (linkOfEntry() || (isFirst && kept("page")))) || hash;
  return isBare && hash.length > 1 && link !== hash ? link.replace(/^#\w*/, hash) : link;
}
// Restores now and whenever the entry changes by Back, Forward, or another link. `restore` is given what the link
// holds, or null for what the page begins with, and whether this is the page's start; `begin` shows what comes first.
/** @type {(restore: (held: any, isFirst: boolean) => Promise<any>, say: (text: string) => void, begin: () => void) =>
    Promise<void>} */
export async function wireLink(restore, say, begin) {
  let isFirst = true;
  const follow = async () => {
    const asked = linkAsked(isFirst);
    if (asked === own && own) return;
    own = asked;
    clearTimeout(timer); // what was to be kept there is of the state before
    timer = 0;
    isNewEntry = false;
    const held = fromFragment(own);
    const count = own.length.toLocaleString("en");
    if (!held && own.length > LONGEST) say(`The link has ${count} characters: it isn’t read.`);
    if (!held && own && !isFirst) { writeLink(); return; } // nothing that this page has written
    const wasFirst = isFirst;
    isFirst = false;
    followed++;
    await restore(held, wasFirst);
    if (!own) begin();
    followed--;
    if (!followed) writeLink(); // the address has the task alone
  };
  addEventListener("popstate", follow);
  addEventListener("hashchange", follow);
  await follow();
  followed--;
  writeLink();
}
