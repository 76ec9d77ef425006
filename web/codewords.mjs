// What each data codeword stands for, in each of the encodations that are read.
import { nameOfEci } from "./charsets.mjs";
import { FNC1, plural } from "./common.mjs";
import { isPlain, spelledItem } from "./messages.mjs";

/** @type {Record<number, string>} */
const LATCHES = { 230: "C40", 231: "Base 256", 238: "X12", 239: "Text", 240: "EDIFACT" };
/** @type {Record<number, string>} */
const BRIEF_LATCHES = { 231: "256", 240: "EDI" };
/** @type {Record<number, string>} */
const MACROS = { 236: "05", 237: "06" };
const TRAILER = [30, 4]; // RS and EOT, at the end of a macro's message
const MOST_NUMBER = 999999; // of an ECI
const UNREAD = "nothing that is read here";
const SHIFTS = ["Shift 1", "Shift 2", "Shift 3"];
const PAD = 129, APPEND = 233, PROGRAM = 234, UPPER_SHIFT = 235, ECI = 241, UNLATCH = 254, EDIFACT_UNLATCH = 31;
const WITHOUT_SHIFTS = [230, 238, 239]; // latches to C40, X12 and Text: a macro may stand behind empty runs of these

/** @type {(item: number) => string} */
function character(item) {
  if (item === 32) return "a space";
  return isPlain(item) || item === 92 ? `the character ${String.fromCharCode(item)}` : `the byte ${item}`;
}
const NEXT = ["", "", ", together with the next", ", together with the next two"]; // by how many share a value
const BEFORE = "the one before", NEIGHBOURS = "its two neighbours";
/** @type {(items: number[]) => string} */
const shown = (items) => items.map((item) => (item === 32 ? "␣" : spelledItem(item))).join("");
/** @type {(text: string) => number[]} */
const codes = (text) => Array.from(text, (c) => c.charCodeAt(0));
/** @type {(number: string) => number[]} */
const macroFront = (number) => [...codes("[)>"), 30, ...codes(number), 29];

/** @typedef {{ items: number[], text: string, brief: string, mark?: number }} Meaning of a codeword; its mark is the
    number of the ECI that begins there */
/** @typedef {{ data: Uint8Array, told: Meaning[], say: (text: string, brief?: string, items?: number[], mark?: number)
    => void }} Reading */
// For codewords that say a content what each stands for.
/** @type {(data: Uint8Array) => Meaning[]} */
export function meanings(data) {
  /** @type {Meaning[]} */
  const told = [];
  /** @type {Reading} */
  const reading = { data, told, say: (text, brief = "", items = [], mark = undefined) => {
    told.push({ text, brief, items, mark });
  } };
  const macro = sayFront(reading);
  while (told.length < data.length && data[told.length] !== PAD) sayOne(reading);
  if (macro) {
    const last = told[told.length - 1];
    last.items = [...last.items, ...TRAILER];
    last.text = `${last.text}; RS EOT of the macro ${told.length > 1 ? "follow" : "end it"}`;
  }
  if (told.length < data.length) reading.say("the end of the message, and the first pad", "end");
  while (told.length < data.length) reading.say("a pad, which fills up the symbol", "pad");
  return told;
}

// What stands in front: a head, or a macro, which may have empty runs before it. The macro's number, if it is one.
/** @type {(reading: Reading) => string | undefined} */
function sayFront(reading) {
  const { data, told, say } = reading;
  if (data[0] === APPEND && isPart(data)) sayPart(reading);
  if (data[0] === PROGRAM) say("reader programming: what follows is an instruction to the reader", "RP");
  if (told.length) return undefined;
  let at = 0;
  while (WITHOUT_SHIFTS.includes(data[at]) && data[at + 1] === UNLATCH) at += 2;
  const macro = MACROS[data[at]];
  if (!macro) return undefined;
  while (told.length < at) sayOne(reading);
  say(`macro ${macro}: the characters [)> RS ${macro} GS in front of the message, and RS EOT after it`, `M${macro}`,
    macroFront(macro));
  return macro;
}
/** @type {(value: number) => boolean} */
const isLetterOfNumber = (value) => value >= 1 && value <= 254; // a codeword of numbers behind 233 and 241
/** @type {(which: number) => { part: number, parts: number }} */
const partIn = (which) => ({ part: (which >> 4) + 1, parts: 17 - (which & 15) });
/** @type {(data: Uint8Array) => boolean} */
function isPart([, which, one, other]) {
  const { part, parts } = partIn(which);
  return part <= parts && parts > 1 && isLetterOfNumber(one) && isLetterOfNumber(other);
}
// Structured append: which part of how many a symbol is, and the numbers that all of them have.
/** @type {(reading: Reading) => void} */
function sayPart({ data, say }) {
  const [, which, one, other] = data, { part, parts } = partIn(which);
  say("structured append: the symbol has one part of what several symbols say together", "SA");
  say(`part ${part} of ${parts}`, `${part}/${parts}`);
  say(`the first number of their file, ${one}`, `#${one}`);
  say(`the second number of their file, ${other}`, `#${other}`);
}
// An ECI and its designator, which has one to three codewords.
/** @type {(reading: Reading) => void} */
function sayMark({ data, told, say }) {
  const [a, b, c] = data.subarray(told.length + 1), count = a < 128 ? 1 : a < 192 ? 2 : 3;
  const number = [a - 1, (a - 128) * 254 + 126 + b, (a - 192) * 64516 + 16128 + b * 254 + c][count - 1];
  const isOne = a > 0 && [b, c].slice(0, count - 1).every(isLetterOfNumber) && number <= MOST_NUMBER;
  if (!isOne) { say(UNREAD); return; }
  const name = nameOfEci(number), means = name === `ECI ${number}` ? "" : `, ${name}`;
  say("an ECI, which says how what follows is meant", "ECI", [], number);
  say(`the number of the ECI, ${number}${means}${NEXT[count]}`, String(number));
  for (let k = 1; k < count; k++)
    say(`the number of the ECI, ${number}${means}, together with ${count > 2 ? NEIGHBOURS : BEFORE}`, "↲");
}

// One codeword in ASCII, or a latch and its whole run.
/** @type {(reading: Reading) => void} */
function sayOne(reading) {
  const { data, told, say } = reading, value = data[told.length];
  if (value >= 1 && value <= 128) say(character(value - 1), shown([value - 1]), [value - 1]);
  else if (value >= 130 && value <= 229) {
    const digits = String(value - 130).padStart(2, "0");
    say(`the digits ${digits}`, digits, codes(digits));
  } else if (value === 232) say("FNC1", "\\F", [FNC1]);
  else if (value === ECI) sayMark(reading);
  else if (value === UPPER_SHIFT) {
    say("an Upper Shift: 128 more for the next", "+128");
    const item = data[told.length] + 127;
    if (told.length < data.length) say(`the byte ${item}, with the 128 of the Upper Shift`, shown([item]), [item]);
  } else if (LATCHES[value]) {
    say(`a latch to ${LATCHES[value]}`, BRIEF_LATCHES[value] ?? LATCHES[value]);
    if (value === 231) sayBytes(reading);
    else if (value === 240) sayGroups(reading);
    else sayTriplets(LATCHES[value], reading);
  } else say(UNREAD);
}

// A Base 256 segment: a length of one or two codewords, then bytes; a number that depends on the place is added to
// each.
/** @type {(reading: Reading) => void} */
function sayBytes({ data, told, say }) {
  const plain = (/** @type {number} */ at) => (data[at] - (((149 * (at + 1)) % 255) + 1) + 256) % 256;
  const most = () => data.length - told.length;
  let length = plain(told.length);
  const toEnd = "the length: to the end of the symbol";
  if (length < 250) say(length ? `the length, ${plural(length, "byte", "bytes")}` : toEnd, String(length));
  else {
    length = 250 * (length - 249) + plain(told.length + 1);
    say(`the length, ${length} bytes, together with the next`, String(length));
    say(`the length, ${length} bytes, together with the one before`, "↲");
  }
  for (let left = length ? Math.min(length, most()) : most(); left; left--) {
    const item = plain(told.length);
    const isLetter = item >= 32 && item <= 126;
    say(isLetter ? `the byte ${item}, ${character(item)}` : `the byte ${item}`, shown([item]), [item]);
  }
}

/** @type {(value: number) => number} */
const edifactItem = (value) => (value < 32 ? value + 64 : value);

/** @type {(value: number) => string} */
const edifactName = (value) =>
  (value === EDIFACT_UNLATCH ? "an unlatch, back to ASCII" : shown([edifactItem(value)]));

// EDIFACT: groups of three codewords with four values of six bits, up to an unlatch, or until no more than two
// codewords are left.
/** @type {(reading: Reading) => void} */
function sayGroups({ data, told, say }) {
  while (data.length - told.length > 2) {
    const [a, b, c] = data.subarray(told.length, told.length + 3);
    const values = [a >> 2, ((a & 3) << 4) | (b >> 4), ((b & 15) << 2) | (c >> 6), c & 63];
    const end = values.indexOf(EDIFACT_UNLATCH), read = end < 0 ? values : values.slice(0, end + 1);
    const items = read.filter((value) => value !== EDIFACT_UNLATCH).map(edifactItem);
    const names = read.map(edifactName).join(", "), count = end < 0 ? 3 : Math.min(end + 1, 3);
    const what = `the EDIFACT ${read.length === 1 ? "value" : "values"} ${read.join(", ")}`;
    const others = count > 2 ? NEIGHBOURS : BEFORE;
    say(`${what}${NEXT[count]}: ${names}`, shown(items) || "ASC", items);
    for (let k = 1; k < count; k++) say(`${what}, together with ${others}: ${names}`, "↲");
    if (end >= 0) return;
  }
}

// Pairs of C40, Text or X12, each of three values, up to an unlatch or until no pair is left.
/** @type {(mode: string, reading: Reading) => void} */
function sayTriplets(mode, { data, told, say }) {
  let shift = 0, upper = 0;
  /** @type {(value: number) => [string, number[]]} what it is called, and its items */
  const valueOf = (value) => {
    const set = shift;
    shift = 0;
    if (mode !== "X12" && !set && value < 3) { shift = value + 1; return [SHIFTS[value], []]; }
    if (set === 2 && value === 30) { upper = 128; return ["Upper Shift", []]; }
    const item = set === 2 && value === 27 ? FNC1 : characterOf(mode, set, value) + upper;
    upper = 0;
    return [shown([item]), [item]];
  };
  while (data.length - told.length >= 2 && data[told.length] !== UNLATCH) {
    const pair = data[told.length] * 256 + data[told.length + 1] - 1;
    const values = [Math.floor(pair / 1600), Math.floor(pair / 40) % 40, pair % 40], parts = values.map(valueOf);
    const names = parts.map(([name]) => name).join(", "), items = parts.flatMap(([, some]) => some);
    say(`the ${mode} values ${values.join(", ")}, together with the next: ${names}`, shown(items), items);
    say(`the ${mode} values ${values.join(", ")}, together with the one before: ${names}`, "↲");
  }
  if (data[told.length] === UNLATCH) say("an unlatch, back to ASCII", "ASC");
}
/** @type {(mode: string, set: number, value: number) => number} */
function characterOf(mode, set, value) {
  if (mode === "X12" && value < 4) return [13, 42, 62, 32][value];
  if (set === 1) return value;
  if (set === 2) return value + (value < 15 ? 33 : value < 22 ? 43 : 69);
  if (set === 3) return mode === "C40" || value === 0 || value > 26 ? value + 96 : value + 64;
  return value === 3 ? 32 : value < 14 ? value + 44 : value + (mode === "Text" ? 83 : 51);
}
