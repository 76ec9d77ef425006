// Two symbols compared: each is a message, a grid or a picture.
import { textOf } from "./charsets.mjs";
import { ASCII, FNC1, SHORTER, isSame, isSameShape, shapeWords, there } from "./common.mjs";
import { $, made, shape } from "./dom.mjs";
import { bound, broughtBy, textOfFile } from "./dropping.mjs";
import { C40, DAMAGED_GRID } from "./examples.mjs";
import { desks } from "./flow.mjs";
import { gridText, isGrid } from "./grids.mjs";
import { readable, takenAsTyped, whyNot } from "./gs1.mjs";
import { isSameContent, contentOf, partOf } from "./contents.mjs";
import { tooMuch } from "./messages.mjs";
import { brokenWords, isBroken, settled } from "./order.mjs";
import { lookAt } from "./looking.mjs";
import { waysTaken } from "./parts.mjs";
import { VALID, mark, stamp } from "./state.mjs";
import { drawSmall } from "./symbol.mjs";
import { contentRead } from "./taking.mjs";
import { borne, refusal } from "./words.mjs";

/** @typedef {import("./common.mjs").Grid} Grid */
/** @typedef {import("./contents.mjs").Content} Content */
/** @typedef {{ why?: string, words?: string, note?: string, isWaiting?: boolean, how?: string,
    seen?: import("./examine.mjs").Seen, normals?: (Grid | null)[] }} Judged */
const MOST_ASKED = 40; // symbols of a picture, of which one is chosen
/** @type {Judged} */
const WAITING = { why: "is being looked at", isWaiting: true };

class Slot {
  asked = 0; // the stamp of what was entered last
  /** @type {Judged} */
  judged = { why: "is empty" };
  svg = shape("svg", { role: "img" });
  button = made("button", { textContent: "Take the symbol above" });

  /** @param {string} name @param {() => void} changed */
  constructor(name, changed) {
    this.name = name;
    this.changed = changed;
    const box = $(`slot-${name.toLowerCase()}`), id = `picture-${name}`;
    this.reads = made("p", { className: "reads", id: `reads-${name}` });
    this.area = made("textarea", { spellcheck: false, autocomplete: "off", wrap: "off",
      ariaLabel: `Symbol ${name}: a message, or a grid of 0 and 1` });
    this.area.setAttribute("aria-describedby", this.reads.id);
    this.file = made("input", { type: "file", id, className: "unseen", accept: "image/*",
      ariaLabel: `A picture of symbol ${name}` });
    const open = made("label", { className: "button", htmlFor: id, textContent: "Open a picture…" });
    const entered = made("div", { className: "entered" }, made("label", {}, "A message, or a grid ", this.area),
      made("div", { className: "row" }, this.file, open, this.button));
    box.className = "slot";
    box.append(made("h3", { textContent: `Symbol ${name}` }), this.svg, entered, this.reads);
    this.wire(box);
  }
  /** @param {HTMLElement} box */
  wire(box) {
    this.area.addEventListener("input", () => this.enterText());
    bound(this.area, (words) => { this.reads.textContent = words; });
    this.button.addEventListener("click", () => this.enterMark(mark()));
    this.file.addEventListener("change", () => {
      if (this.file.files[0]) this.enterPicture(this.file.files[0]);
      this.file.value = "";
    });
    for (const name of ["drop", "paste"]) box.addEventListener(name, (event) => this.given(event));
  }
  // What is dropped or pasted here is taken here, and not as the symbol above.
  /** @param {any} event */
  given(event) {
    const { pictures, file, text, note, why } = broughtBy(event.dataTransfer ?? event.clipboardData);
    if (event.type === "paste" && !pictures && !file) return; // text is pasted in the field
    event.preventDefault();
    const others = pictures && pictures.length > 1 ? ` It is one of ${pictures.length} pictures.` : "";
    if (pictures) this.enterPicture(pictures[0], `${others}${note}`);
    else if (file) this.enterFile(file, note ?? "");
    else if (why) this.settle({ why: "isn’t there", words: why });
    else this.enterDropped(text ?? "");
  }
  /** @type {(text: string) => void} */
  enterDropped(text) {
    this.area.value = tooMuch(text) ? "" : text;
    if (tooMuch(text)) this.settle({ why: "can’t be taken", words: tooMuch(text) }); else this.enterText();
  }
  /** @type {(file: File, others: string) => Promise<void>} */
  async enterFile(file, others) {
    const own = this.wait(), { text, note, why } = await textOfFile(file);
    if (this.asked !== own) return;
    if (why) { this.settle({ why: "can’t be taken", words: why }); return; }
    this.area.value = text;
    this.enterText(`${note}${others}`);
  }
  // From here on there is no verdict, until an answer to this very question has come.
  wait() {
    this.judged = WAITING;
    this.asked = stamp();
    this.changed();
    return this.asked;
  }
  /** @param {Judged} judged */
  settle(judged) {
    this.asked = stamp();
    this.judged = judged;
    this.draw();
    this.changed();
  }
  // The symbol above, as it stands now.
  /** @type {(it: import("./state.mjs").Mark) => Promise<void>} */
  async enterMark(it) {
    const own = this.wait();
    await settled(it);
    if (this.asked !== own) return;
    if (it.stage !== VALID) { this.settle({ why: "isn’t there: the symbol above isn’t valid" }); return; }
    this.area.value = gridText(there(it.seen));
    this.enterText();
  }
  async enterText(note = "") {
    const own = this.wait(), text = this.area.value, much = tooMuch(text);
    if (much) {
      this.area.value = ""; // even to lay it out takes long
      this.settle({ why: "can’t be taken", words: much });
      return;
    }
    if (!text.trim()) { this.settle({ why: "is empty" }); return; }
    const isRows = isGrid(text), read = isRows ? null : takenAsTyped(text.replace(/\n+$/, ""));
    if (read && !read.content) { this.settle({ why: "can’t be taken", words: whyNot(read) }); return; }
    const question = isRows ? { grid: text } : { ways: waysTaken(there(read), 1) };
    const judged = await desks.quick.ask("judge", question, `judge ${this.name}`);
    if (!judged || this.asked !== own) return;
    this.settle({ ...judgedOf(judged, isRows ? "isn’t a grid" : "isn’t written"), note });
  }
  /** @type {(file: File, note?: string) => Promise<void>} */
  async enterPicture(file, note = "") {
    const own = this.wait();
    this.area.value = "";
    this.reads.textContent = `Looking at ${file.name || "the picture"}…`;
    const more = (/** @type {object} */ picture) => ({ picture: { ...picture, most: MOST_ASKED } });
    const how = { kind: "judge", more };
    const judged = await lookAt(file, `picture ${this.name}`, how).catch((why) => ({ failed: why.message }));
    if (!judged || this.asked !== own) return;
    if (judged.symbols) this.askWhich(judged.symbols, note);
    else this.settle({ ...judgedOf(judged, "isn’t found in the picture"), note });
  }
  // Of several symbols in a picture one has to be chosen.
  /** @type {(symbols: import("./pictures.mjs").Sighted[], note: string) => void} */
  askWhich(symbols, note) {
    const { length } = symbols, count = length < MOST_ASKED ? String(length) : `${length} or more`;
    const words = `There are ${count} symbols in the picture. Which one is to be compared?`;
    this.settle({ why: `isn’t chosen yet: there are ${count} in its picture`, words });
    const buttons = symbols.map((symbol) => {
      const button = made("button", { textContent: readable(symbol) || "the empty message" });
      button.addEventListener("click", () => this.enterChosen(symbol, note));
      return button;
    });
    this.reads.append(made("span", { className: "row small", role: "group", ariaLabel: words }, ...buttons));
  }
  /** @type {(symbol: import("./pictures.mjs").Sighted, note: string) => Promise<void>} */
  async enterChosen(symbol, note) {
    const own = this.wait(), judged = await desks.quick.ask("judge", { symbol }, `judge ${this.name}`);
    if (judged && this.asked === own) this.settle({ ...judgedOf(judged, "isn’t read"), note });
  }
  draw() {
    const { words, seen = null, how, note = "" } = this.judged;
    drawSmall(this.svg, seen);
    const label = seen ? `, of ${shapeWords(seen)} modules` : ": none";
    this.svg.setAttribute("aria-label", `Symbol ${this.name}${label}`);
    this.reads.textContent = `${words ?? ""}${note} `.trimStart();
    if (!seen || seen.answer.fault) return;
    const { answer } = seen, stands = how ? `, ${how}` : "";
    const mended = borne(answer) || "nothing had to be corrected";
    const content = there(contentRead(seen)), text = readable(content) || "the empty message";
    const found = `${shapeWords(seen)}${stands}; ${mended}${headWords(content)}: `;
    this.reads.append(found, made("b", { textContent: text }));
  }
}
/** @type {(answer: any, why: string) => Judged} */
function judgedOf(answer, why) {
  if (isBroken(answer)) return { why: "wasn’t looked at to the end", words: brokenWords(answer) };
  if (answer.fault) return { why, words: refusal(answer.fault) };
  if (!answer.modules) return { why, words: answer.why };
  const { fault } = answer.seen.answer;
  if (!fault) return answer;
  return { ...answer, why: "isn’t read", words: `Refused. ${refusal(fault, answer.seen)}` };
}

/** @type {(content: import("./contents.mjs").Content) => string} */
function headWords({ head }) {
  const part = partOf({ head });
  if (part) return `; part ${part.part} of ${part.parts} of the file ${part.file.join(" ")}`;
  return head ? "; reader programming" : "";
}

// ---- The verdict on both

/** @type {(kind: string, title: string, words: string, grids?: Grid[]) => void} */
function sayOnBoth(kind, title, words, grids = []) {
  const box = $("same"), [head, text, normals] = box.children;
  box.className = kind;
  head.textContent = title;
  text.textContent = words;
  normals.textContent = "";
  normals.className = grids.length > 1 ? "normals two" : "normals";
  for (const grid of grids) {
    const svg = shape("svg", { role: "img", "aria-label": `a normal grid of ${shapeWords(grid)} modules` });
    drawSmall(svg, grid);
    normals.append(svg);
  }
}
/** @param {Slot[]} slots */
function compare(slots) {
  const judged = slots.map((slot) => slot.judged);
  if (judged.some(({ isWaiting }) => isWaiting)) { sayOnBoth("unknown", "…", "Being looked at."); return; }
  const unread = slots.filter((slot) => slot.judged.why).map((slot) => `Symbol ${slot.name} ${slot.judged.why}.`);
  if (unread.length) { sayOnBoth("unknown", "No answer", unread.join(" ")); return; }
  // Under one profile: ASCII, or Shorter if a message fits no size in ASCII.
  const pairUnder = (/** @type {number} */ profile) => judged.map(({ normals }) => there(normals)[profile]);
  const under = [ASCII, SHORTER].map(pairUnder).find((pair) => pair.every(Boolean));
  if (!under) {
    sayOnBoth("unknown", "No answer", "Both are read, but the normal form of a message fits no size.");
    return;
  }
  /** @type {(one: Grid, other: Grid) => boolean} */
  const isEqual = (one, other) => isSameShape(one, other) && isSame(one.modules, other.modules);
  const [a, b] = under.map(there), seen = judged.map((each) => there(each.seen)), isOne = isEqual(seen[0], seen[1]);
  const both = isOne ? "Both" : "Their modules differ, but both";
  const words = `Their normal grids differ${likenessOf(seen.map((each) => there(contentRead(each))))}:`;
  if (!isEqual(a, b)) sayOnBoth("differ", "No, they say different things.", words, [a, b]);
  else sayOnBoth("", "Yes, they say the same.", `${both} have this one normal grid${unlike(judged)}:`, [a]);
}
// What two contents have in common that aren't the same, in words, or "".
/** @type {(contents: Content[]) => string} */
function likenessOf(contents) {
  const [one, other] = contents.map(textOf), isAlike = one.text !== null && one.text === other.text;
  const [head, otherHead] = contents.map((content) => contentOf([], [], content.head));
  if (!isSameContent(head, otherHead)) return "";
  return fnc1Words(contents) || (isAlike ? ", though both are the same text, with other bytes or ECIs" : "");
}
// That contents look alike, and that FNC1 is the difference, in words, or "".
/** @type {(contents: Content[]) => string} */
function fnc1Words(contents) {
  const [one, other] = contents.map(({ items, ...more }) => ({ ...more, items: items.filter((it) => it !== FNC1) }));
  const isSameReading = readable(contents[0]) === readable(contents[1]);
  if (!isSameReading && !isSameContent(one, other)) return "";
  const areGs1 = contents.map(({ items }) => items[0] === FNC1);
  const what = isSameReading ? "they look alike" : "only FNC1 is the difference";
  if (areGs1[0] === areGs1[1]) return isSameReading ? "" : `, though ${what}`;
  const [gs1, plain] = areGs1[0] ? ["A", "B"] : ["B", "A"];
  return `, though ${what}: symbol ${gs1} begins with FNC1, and so is GS1 data; symbol ${plain} is plain text`;
}
// In what symbols that say the same differ that equal normal grids don't tell, in words, or "".
/** @type {(judged: Judged[]) => string} */
function unlike(judged) {
  const [one, other] = judged.map(({ seen }) => seen?.answer.symbology);
  return one === other ? "" : `, though their symbology identifiers are ${one} and ${other}`;
}
export function wireCompare() {
  /** @type {Slot[]} */
  const slots = [];
  const changed = () => { if (slots.length === 2) compare(slots); };
  for (const name of ["A", "B"]) slots.push(new Slot(name, changed));
  slots[0].area.value = C40;
  slots[1].area.value = DAMAGED_GRID;
  for (const slot of slots) slot.enterText();
}
