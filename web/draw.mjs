// Drawing what is read: the stage, facts, the verdict and the meters.
import { drawAbout, drawWords } from "./cells.mjs";
import { textOf } from "./charsets.mjs";
import { AUTO, BEYOND, FNC1, plural, shapeWords, there } from "./common.mjs";
import { $, field, hint, made, setUsable, shape } from "./dom.mjs";
import { drawElements, elementsOf, faultsOf } from "./elements.mjs";
import { drawGathered, missingWords } from "./gathered.mjs";
import { drawPrint } from "./print.mjs";
import { elementString } from "./gs1.mjs";
import { PROGRAMMING, isSameContent, partOf } from "./contents.mjs";
import { drawLesson } from "./lesson.mjs";
import { spelled, spelledContent, visibleTextOf } from "./messages.mjs";
import { BAD, EMPTY, VALID, WORKING, isChanged, isDamaged, mark, store } from "./state.mjs";
import { drawSymbol } from "./symbol.mjs";
import { drawPrintSize } from "./taking.mjs";
import { borne, refusal, spentBy } from "./words.mjs";

export function drawAll() {
  document.body.toggleAttribute("data-waiting", mark().stage === WORKING);
  drawStage(); drawFacts(); drawSymbol(); drawVerdict(); drawMeters();
  drawWords(); drawAbout(); drawElements(); drawPrint(); drawGathered(); drawLesson();
}

const GIVING = ["copy", "save-svg", "save-png", "save-pdf", "print", "copy-link"];
// What can be done with the mark now.
export function drawStage() {
  const it = mark(), isValid = it.stage === VALID, canAct = isValid || (it.stage === WORKING && it.modules !== null);
  document.body.dataset.stage = it.stage;
  document.body.toggleAttribute("data-entering", it.isEntering);
  for (const id of GIVING) setUsable(id, isValid);
  setUsable("copy-message", isValid && !it.seen?.answer.fault);
  for (const id of ["to-limit", "one-more", "scratch"]) setUsable(id, canAct);
  setUsable("undo", canAct && it.past.length > 0);
  setUsable("redo", canAct && it.future.length > 0);
  setUsable("undo-all", canAct && isChanged(it));
  setUsable("tell", canAct && isDamaged(it));
  const wasHidden = $("which").hidden;
  $("which").hidden = !(it.modules && isDamaged(it));
  if ($("which").hidden && !wasHidden) field("which-undamaged").checked = true;
  $("which-first").textContent = it.content ? "take the undamaged symbol" : "take the symbol as it was opened";
}
/** @type {(number: string | number, what: string) => Node} */
const fact = (number, what) =>
  made("div", {}, made("dt", { textContent: what }), made("dd", { textContent: number }));
function drawFacts() {
  const { seen } = mark(), size = seen?.size;
  const each = size && size.blocks > 1 ? ` in each of ${size.blocks} blocks` : "";
  const facts = !seen || !size ? [] : [fact(shapeWords(seen), "modules"), fact(size.data, "data codewords"),
    fact(size.check, "check codewords"), fact(size.limit, `wrong codewords can be corrected${each}`),
    ...(seen.answer.symbology ? [fact(seen.answer.symbology, "symbology identifier")] : [])];
  $("facts").replaceChildren(...facts);
  drawPrintSize();
}

// ---- The verdict

const CIRCLE = "M12 1a11 11 0 1 0 .001 0z";
/** @type {Record<string, [string, string]>} of each kind a shape and the sign on it */
const ICONS = {
  good: [CIRCLE, "M6.5 12.5l3.7 3.7L17.5 8.6"],
  refused: ["M7.5 1h9L23 7.5v9L16.5 23h-9L1 16.5v-9z", "M8 8l8 8m0-8l-8 8"],
  other: ["M12 1.5L23.5 22H.5z", "M12 8.5v6.5m0 2v2.5"],
  none: [CIRCLE, "M6.5 12h11"],
};
/** @type {(drawing: [string, string]) => SVGElement} */
const iconOf = ([around, sign]) => shape("svg", { viewBox: "0 0 24 24", "aria-hidden": "true" },
  shape("path", { d: around, fill: "currentColor" }),
  shape("path", { d: sign, fill: "none", stroke: "var(--card)", "stroke-width": 2.6 }));

/** @typedef {import("./contents.mjs").Content} Content */
/** @type {(textContent: string) => Node} */
const emphasised = (textContent) => made("i", { textContent });
// A content as people read it: GS1 data by its identifiers in brackets, text as it is, all else as it is spelled.
/** @type {(content: Content) => (Node | string)[]} */
function shownContent(content) {
  const { items, marks } = content, text = visibleTextOf(content), elements = elementString(content);
  if (text) return [text];
  if (elements) return elements.split(/(\(\d+\))/).map((part, k) => (k % 2 ? emphasised(part) : part));
  if (!items.length && !marks.length) return [made("span", { className: "none", textContent: "the empty message" })];
  const parts = spelledContent(content).split(/(\\\\|\\F|\\x..|\\E\{\d+\})/);
  return parts.map((part, k) => (k % 2 ? emphasised(part) : part));
}
/** @type {(kind: string, state: string, why: string, content?: Content | null) => void} */
function say(kind, state, why, content = null) {
  const none = kind === "refused" ? [made("span", { className: "none", textContent: "no message" })] : [];
  if ($("verdict").className !== `card verdict ${kind}`) $("verdict").className = `card verdict ${kind}`;
  $("state").replaceChildren(iconOf(ICONS[kind]), made("span", { textContent: state }));
  $("says").replaceChildren(...(content ? shownContent(content) : none));
  if (content && visibleTextOf(content)) $("says").dataset.text = textOf(content).charset;
  else delete $("says").dataset.text;
  $("why").textContent = why;
  $("says").tabIndex = $("says").textContent ? 0 : -1; // it scrolls, where there is something
}
/** @type {Record<string, string>} */
const NONE = { [EMPTY]: "Nothing is entered yet", [WORKING]: "Working…" };
const OTHER = "The damage is beyond the limit, and what is left is within the limit of another message’s codewords. "
  + "No reader can notice that: only damage within the limit leaves the message certain.";

function drawVerdict() {
  const it = mark();
  if (it.stage === BAD) say("none", "Nothing is read", it.why);
  else if (it.stage !== VALID) say("none", NONE[it.stage], "");
  else if (it.seen?.answer.fault) say("refused", "Refused", refusal(it.seen.answer.fault, it.seen));
  else sayRead(it, there(it.seen));
}
// Of text in which charset it is, and of which bytes.
/** @type {(content: Content, hasBytes: boolean) => string} */
function charsetWords(content, hasBytes) {
  const { items, marks } = content, isOdd = marks.length > 0 || items.some((item) => item > 127);
  if (!isOdd || !visibleTextOf(content)) return "";
  const by = marks.length ? `, as ${marks.length > 1 ? "ECIs say" : `ECI ${marks[0].number} says`}` : "";
  const bytes = hasBytes ? `, of these bytes: ${spelled(items)}` : ".";
  return ` It is text in ${textOf(content).charset.toUpperCase()}${by}${bytes}`;
}
const TORN = "; more are taken here, since each block keeps a correction unused.";
const INSTRUCTION = "It is an instruction to the reader that scans it, and no message.";
// As what it is read.
/** @type {(content: Content, word: string) => string} */
function readAs({ items, head }, word) {
  const part = partOf({ head });
  if (part) return `${word}, as part ${part.part} of ${part.parts}`;
  if (head) return `${word}, as reader programming`;
  return items[0] === FNC1 ? `${word}, as GS1 data` : word;
}
// Where a symbol is one part of what several say, which parts of it aren't read yet.
/** @type {(it: import("./state.mjs").Mark, content: Content) => string} */
function missing(it, content) {
  const part = partOf(content);
  return part && it.name === "read" ? ` ${missingWords(part)}` : "";
}
// How many elements of a whole GS1 message are wrong. A part may have some that are cut.
/** @type {(content: Content) => number} */
const wrongElements = ({ items, head }) => (items[0] === FNC1 && !head ? faultsOf(elementsOf(items)) : 0);
/** @type {(it: import("./state.mjs").Mark, seen: import("./examine.mjs").Seen) => void} */
function sayRead(it, { usual, answer }) {
  const { items = [], marks = [], head = null, corrected = [], erased = [], left = [], border = 0 } = answer;
  const content = { items, marks, head }, faults = wrongElements(content);
  const words = borne({ corrected, erased, border }), isSpent = spentBy(erased, left);
  const torn = it.limit === AUTO && border > usual ? ` Usually ${usual} may${TORN}` : "";
  if (it.content && !isSameContent(it.content, content)) {
    say("other", "Read as another message", OTHER, content);
    return;
  }
  const within = isSpent || !it.content ? isSpent : " Damage within the limits never changes the message.";
  const isMade = store.task === "make" && it.content !== null && !isDamaged(it), word = isMade ? "Made" : "Read";
  const mended = words ? `${words}.${torn}${within}` : isMade ? "" : "Nothing had to be corrected.";
  const why = `${mended}${missing(it, content)}${charsetWords(content, !isMade)}`.trimStart();
  const wrong = `${plural(faults, "element is", "elements are")} wrong, as the table says.`;
  if (isSpent && !it.content) say("other", "Read, but nothing shows that it is right", why, content);
  else if (faults) say("other", `${word}, but it isn’t right as GS1 data`, `${wrong} ${why}`, content);
  else if (head === PROGRAMMING) say("other", readAs(content, word), `${INSTRUCTION} ${why}`, content);
  else say("good", readAs(content, word), why, content);
}

// ---- Meters

// A bar of so many parts, of which some are on and some, behind them, are doubtful; and its words, of which the first
// is the count.
/** @type {(name: string, parts: { on: number, doubtful?: number, all: number, isOver: boolean }, words: string[]) =>
    Node} */
function meter(name, { on, doubtful = 0, all, isOver }, [count, ...words]) {
  const segments = Math.min(Math.max(all, 1), 60), said = words.join("");
  const bar = made("span", { className: `bar${segments > 24 ? " fine" : ""}`, role: "meter", ariaLabel: name });
  bar.setAttribute("aria-valuemin", "0");
  bar.setAttribute("aria-valuemax", String(Math.max(all, on + doubtful)));
  bar.setAttribute("aria-valuenow", String(on + doubtful));
  bar.setAttribute("aria-valuetext", `${name}: ${count}${said}`);
  const at = (/** @type {number} */ k) => (isOver || k < on ? "on" : k < on + doubtful ? "doubtful" : "");
  for (let k = 0; k < segments; k++) bar.append(made("i", { className: at((k * Math.max(all, 1)) / segments) }));
  const counted = made("span", { className: "count" }, made("b", { textContent: count }), said);
  return made("div", { className: `meter${isOver ? " over" : ""}` }, made("span", { textContent: name }), bar, counted);
}
// The meter of a block: of the wrong codewords that can be corrected; or, where it has doubtful ones, of its check
// codewords, of which a wrong codeword takes two and a doubtful one takes one.
/** @type {(name: string, seen: import("./examine.mjs").Seen, b: number) => Node} */
function meterOfBlock(name, { size, corrected, erased, left }, b) {
  const { limit } = size, isOver = corrected[b] === BEYOND, checks = size.check / size.blocks;
  const wrong = isOver ? 0 : corrected[b];
  if (!erased[b]) {
    const count = isOver ? `more than ${limit}` : String(wrong);
    return meter(name, { on: isOver ? limit + 1 : wrong, all: limit, isOver },
      [count, ` wrong, ${limit} can be corrected`]);
  }
  const parts = { on: isOver ? checks : 2 * wrong, doubtful: isOver ? 0 : erased[b], all: checks, isOver };
  const words = isOver ? ["too many", ` wrong beside ${erased[b]} doubtful`]
    : [String(wrong), ` wrong, ${erased[b]} doubtful; ${left[b]} of ${checks} checks left`];
  return meter(name, parts, words);
}
const ANY_BORDER = "Any number is accepted, if each block keeps a correction unused.";
function drawMeters() {
  const it = mark();
  setUsable("usual", it.limit !== null);
  setUsable("any-border", it.limit !== AUTO);
  if (!it.seen) { $("meters").replaceChildren(); return; }
  const { seen } = it, { size, corrected, border, limit } = seen;
  const name = (/** @type {number} */ b) => (size.blocks > 1 ? `Block ${b + 1}` : "Codewords");
  const blocks = corrected.map((_, b) => meterOfBlock(name(b), seen, b));
  const ofBorder = meter("Border", { on: border, all: limit, isOver: border > limit },
    [String(border), ` wrong, ${limit} accepted`]);
  $("meters").replaceChildren(...blocks, ofBorder);
  hint("border-hint", it.limitWhy || (it.limit === AUTO ? ANY_BORDER : ""), Boolean(it.limitWhy));
  if (document.activeElement !== $("border-limit")) {
    field("border-limit").value = String(limit);
    $("border-limit").removeAttribute("aria-invalid");
  }
}
