// GS1 messages: element strings as people write them, with identifiers in parentheses, and as a symbol holds them. The
// identifiers are those of the library's table, which is packed into the page.
import { FNC1, isSame, plural, there } from "./common.mjs";
import { contentOf } from "./contents.mjs";
import { parse, spelledItem, spelledContent, takenAsText, tooMuch, unspelled, visibleTextOf } from "./messages.mjs";

/** @typedef {{ charset: string, least: number, most: number, check?: string, mayLack: boolean }} Part of a value */
/** @typedef {{ isFixed: boolean, hasDecimals: boolean, parts: Part[], name: string }} Entry of the table */
/** @typedef {{ identifier: string, name: string, items: number[], note?: string, fault?: string }} Element */
/** @typedef {{ identifier: string, items: number[] }} Written element */
/** @typedef {import("./contents.mjs").Content} Content */
/** @typedef {import("./messages.mjs").Taken} Taken */
/** @typedef {import("./messages.mjs").Fault} Fault */
const SEPARATOR = 29; // GS, which may stand in place of an FNC1 between elements
/** @type {Map<string, Entry>} */
const known = new Map();

// ---- What a value must be

/** @type {Record<string, { all: RegExp, words: [string, string] }>} */
const CHARSETS = {
  N: { all: /^[0-9]*$/, words: ["digit", "digits"] },
  X: { all: /^[!"%-?A-Z_a-z]*$/, words: ["character", "characters"] },
  Y: { all: /^[#\-/0-9A-Z]*$/, words: ["character", "characters"] },
  Z: { all: /^[-0-9A-Z_a-z=]*$/, words: ["character", "characters"] },
};
/** @type {(part: Part) => string} */
const lengthWords = ({ charset, least, most }) => {
  const [one, many] = CHARSETS[charset].words;
  return `${least < most ? `${least} to ` : ""}${plural(most, one, many)}`;
};

// The check digit of the digits before it: weights of 3 and 1 from the right.
/** @type {(digits: string) => number} */
const checkDigit = (digits) =>
  (10 - ([...digits].reverse().reduce((sum, digit, k) => sum + Number(digit) * (k % 2 ? 1 : 3), 0) % 10)) % 10;

// The check pair of the characters before it: each by its place among the 82, weighted with primes from the right,
// modulo 1021.
const OF_PAIRS = "!\"%&'()*+,-./0123456789:;<=>?ABCDEFGHIJKLMNOPQRSTUVWXYZ_abcdefghijklmnopqrstuvwxyz";
const PAIR = "23456789ABCDEFGHJKLMNPQRSTUVWXYZ";
const PRIMES = [2, 3, 5, 7, 11, 13, 17, 19, 23, 29, 31, 37, 41, 43, 47, 53, 59, 61, 67, 71, 73, 79, 83];
/** @type {(text: string) => string} */
function checkPair(text) {
  const sum = [...text].reverse().reduce((all, c, k) => all + OF_PAIRS.indexOf(c) * PRIMES[k], 0) % 1021;
  return PAIR[Math.floor(sum / 32)] + PAIR[sum % 32];
}
const MONTHS = ["January", "February", "March", "April", "May", "June", "July", "August", "September", "October",
  "November", "December"];
/** @type {(text: string, at: number) => number} */
const numberAt = (text, at) => Number(text.slice(at, at + 2));

// A day: { words } or { fault }. Day 00 is the end of the month, where that may stand.
/** @type {(year: number, text: string, mayLackDay: boolean) => { words?: string, fault?: string }} */
function dayOf(year, text, mayLackDay) {
  const month = numberAt(text, 0), day = numberAt(text, 2);
  if (month < 1 || month > 12) return { fault: `${text.slice(0, 2)} is no month` };
  if (day === 0 && mayLackDay) return { words: `the end of ${MONTHS[month - 1]} ${year}` };
  if (day < 1 || day > new Date(year, month, 0).getDate())
    return { fault: `${text.slice(2, 4)} is no day of that month` };
  return { words: `${day} ${MONTHS[month - 1]} ${year}` };
}
// Of a year of two digits the century is the one that puts it at most 49 years back or 50 ahead.
/** @type {(year: number) => number} */
function fullYear(year) {
  const now = new Date().getFullYear();
  const years = [-100, 0, 100].map((more) => Math.floor(now / 100) * 100 + more + year);
  return there(years.find((each) => each >= now - 49 && each <= now + 50));
}
/** @type {(most: number, what: string) => (text: string) => { words?: string, fault?: string }} */
const below = (most, what) => (text) => (Number(text) < most ? {} : { fault: `${text} is no ${what}` });
/** @type {Map<string, Set<string>>} the codes that a check lets pass, by its name */
const codes = new Map();
/** @type {(check: string, what: string, more?: string) => (text: string) => { words?: string, fault?: string }} */
function listed(check, what, more = "") {
  return (text) => (codes.get(check)?.has(text) || text === more ? {} : { fault: `${text} is no ${what}` });
}
/** @type {Record<string, (text: string) => { words?: string, fault?: string }>} */
const CHECKS = {
  check(text) {
    const right = checkDigit(text.slice(0, -1));
    if (Number(text.at(-1)) === right) return { words: "the check digit is right" };
    return { fault: `the check digit ${text.at(-1)} should be ${right}` };
  },
  pair(text) {
    if (text.length < 3) return { fault: "the check pair is missing" };
    const right = checkPair(text.slice(0, -2));
    if (text.slice(-2) === right) return { words: "the check pair is right" };
    return { fault: `the check pair ${text.slice(-2)} should be ${right}` };
  },
  date: (text) => dayOf(fullYear(numberAt(text, 0)), text.slice(2), false),
  "month-day": (text) => dayOf(fullYear(numberAt(text, 0)), text.slice(2), true),
  "full-date"(text) {
    const year = Number(text.slice(0, 4));
    return year ? dayOf(year, text.slice(4), false) : { fault: "there is no year 0000" };
  },
  time(text) {
    const isTime = numberAt(text, 0) < 24 && numberAt(text, 2) < 60;
    return text === "9999" || isTime ? {} : { fault: `${text} is no time of day` };
  },
  hour: below(24, "hour"),
  minute: below(60, "minute"),
  second: below(60, "second"),
  minus: (text) => (text === "-" ? {} : { fault: `${text} stands where only a minus sign may` }),
  country: listed("country", "country"), processor: listed("country", "country", "999"),
  letters: listed("letters", "country"), currency: listed("currency", "currency"),
};

// A value of decimals: where the table has several identifiers of four digits in one line, the last digit says how
// many. They stand in the last part, behind a currency if there is one.
/** @type {(identifier: string, entry: Entry, text: string) => string} */
function decimalOf(identifier, { hasDecimals, parts }, text) {
  if (!hasDecimals || !/^\d+$/.test(text)) return "";
  const places = Number(identifier[3]), digits = text.slice(mostOf(parts.slice(0, -1))).padStart(places + 1, "0");
  return places ? `${digits.slice(0, -places)}.${digits.slice(-places)}`.replace(/^0+(?=\d)/, "") : "";
}

const NO_DIGITS = "it has something other than digits", NO_CHARACTERS = "it has a character that isn’t allowed here";

// What is wrong with a value, or what it means.
/** @type {(identifier: string, entry: Entry, text: string) => { note?: string, fault?: string }} */
function judgedValue(identifier, entry, text) {
  const { parts } = entry, notes = [decimalOf(identifier, entry, text)];
  let at = 0;
  for (const part of parts) {
    const own = text.slice(at, at + part.most);
    if (!own && part.mayLack) break;
    const due = parts.length > 1 ? "are due in a part" : "are due";
    if (own.length < part.least) return { fault: `too short: ${lengthWords(part)} ${due}` };
    if (!CHARSETS[part.charset].all.test(own)) return { fault: part.charset === "N" ? NO_DIGITS : NO_CHARACTERS };
    const { words, fault } = CHECKS[part.check ?? ""]?.(own) ?? {};
    if (fault) return { fault };
    notes.push(words ?? "");
    at += own.length;
  }
  if (at < text.length) return { fault: `too long by ${plural(text.length - at, "character", "characters")}` };
  return { note: notes.filter(Boolean).join("; ") };
}

// ---- The identifiers

const PART = /^(\[?)([NXYZ])(\.\.)?(\d+)(?::([a-z-]+))?\]?$/;
/** @type {(words: string) => Part} */
function valuePartOf(words) {
  const [, open, charset, range, count, check] = PART.exec(words) ?? [];
  return { charset, least: range ? 1 : Number(count), most: Number(count), check, mayLack: open === "[" };
}
// Each line has: the identifier, or the first and the last of several; `fixed` or `fnc1`; since when; the parts of the
// value; the title.
const ENTRY = /^(\d{2,4})(?:-(\d{2,4}))?\s+(fixed|fnc1)\s+\S+\s+(\S+)\s+(.*)$/;
/** @type {(text: string) => void} */
export function readIdentifiers(text) {
  for (const line of text.split("\n")) {
    const [, check, some] = /^:(\w+) (.*)$/.exec(line) ?? [];
    if (check) codes.set(check, new Set([...codes.get(check) ?? [], ...some.split(" ")]));
    const [, first, last, ending, parts, name] = ENTRY.exec(line) ?? [];
    if (!first) continue;
    const hasDecimals = first.length === 4 && last !== undefined;
    const entry = { isFixed: ending === "fixed", hasDecimals, parts: parts.split("+").map(valuePartOf), name };
    for (let number = Number(first); number <= Number(last ?? first); number++)
      known.set(String(number).padStart(first.length, "0"), entry);
  }
}
/** @type {(parts: Part[]) => number} */
const mostOf = (parts) => parts.reduce((sum, { most }) => sum + most, 0);
/** @type {(digits: string) => boolean} */
export const isIdentifier = (digits) => known.has(digits);
/** @type {(identifier: string) => Entry} */
const entryOf = (identifier) => there(known.get(identifier));
/** @type {(identifier: string) => string} */
export const nameOfIdentifier = (identifier) => known.get(identifier)?.name ?? "";
// The identifier at the beginning of a text.
/** @type {(text: string) => string | undefined} */
const identifierAt = (text) => [2, 3, 4].map((length) => text.slice(0, length)).find((some) => known.has(some));

// ---- As a symbol holds them

/** @type {(items: number[]) => string} */
const asText = (items) => items.map((item) => (item === FNC1 ? "\u001D" : String.fromCharCode(item))).join("");
/** @type {(items: number[]) => Element[]} */
export function elementsIn(items) {
  const elements = [];
  for (let at = 0; at < items.length;) {
    const rest = items.slice(at), gap = rest.findIndex((item) => item === FNC1 || item === SEPARATOR);
    const whole = gap < 0 ? rest : rest.slice(0, gap);
    const identifier = identifierAt(asText(whole.slice(0, 4))) ?? "", entry = known.get(identifier);
    if (!entry) {
      elements.push({ identifier: "", name: "no identifier begins here", items: whole, fault: "unknown" });
      at += whole.length + 1;
      continue;
    }
    const value = whole.slice(identifier.length).slice(0, entry.isFixed ? mostOf(entry.parts) : Infinity);
    elements.push({ identifier, name: entry.name, items: value, ...judgedValue(identifier, entry, asText(value)) });
    at += identifier.length + value.length;
    if (items[at] === FNC1 || items[at] === SEPARATOR) at++;
  }
  if (elements.length) return elements;
  return [{ identifier: "", name: "no element follows the FNC1", items: [], fault: "empty" }];
}

// The elements of a content that is GS1 data as its rules have it, or null.
/** @type {(content: Content) => { identifier: string, value: string }[] | null} */
export function elementsOfContent({ items, head }) {
  if (items[0] !== FNC1 || head) return null;
  const elements = elementsIn(items.slice(1));
  if (elements.some(({ fault }) => fault)) return null;
  return elements.map(({ identifier, items: value }) => ({ identifier, value: asText(value) }));
}

// ---- As people write them

// A text that begins with a bracket is meant as elements. In it each bracket that is opened begins an identifier, but
// for those that are spelled \x28 or \(. Square brackets may stand in place of all round ones, as zint has them.
/** @type {(text: string) => boolean} */
const isElements = (text) => text.startsWith("(") || /^\[\d{2,4}\]/.test(text);
/** @type {Record<string, RegExp>} */
const ELEMENTS = { "(": /\((\d*)(\)?)((?:\\[^]?|[^(\\])*)/y, "[": /\[(\d*)(\]?)([^[]*)/y };
/** @type {(text: string, at: number, why: string) => Fault} */
function noElement(text, at, why) {
  const name = at ? "as part of the value" : "as plain text", bracket = text[at] === "(" ? "\\x28" : "\\x5B";
  return { column: at + 1, why, ways: [{ name, text: `${text.slice(0, at)}${bracket}${text.slice(at + 1)}` }] };
}

// Why a text isn't taken, in words.
/** @type {(taken: Taken) => string} */
export const whyNot = ({ column, why = "" }) => (column ? `Column ${column} ${why}.` : why);

// The element that is written at this place: { identifier, items, end }, or what is wrong.
/** @type {(text: string, at: number) => Fault & { element?: Written, end: number }} */
function elementAt(text, at) {
  const element = ELEMENTS[text[0]];
  element.lastIndex = at;
  const [all, identifier, closed, spelledValue] = there(element.exec(text)), begin = at + identifier.length + 2;
  const end = at + all.length;
  if (!closed) return { ...noElement(text, at, "opens a bracket that holds no identifier, such as (01)"), end };
  const entry = known.get(identifier), { content, ...fault } = parse(spelledValue, true);
  if (!entry) return { ...noElement(text, at, `begins (${identifier}), which is no identifier of GS1’s table`), end };
  if (/\s/.test(spelledValue)) {
    const ways = [{ name: "without spaces", text: text.replace(/\s/g, "") }];
    return { why: `(${identifier}) ${entry.name} has a space in its value, and GS1 has none.`, ways, end };
  }
  if (!content) {
    const [before, after] = [text.slice(0, begin), text.slice(begin + spelledValue.length)];
    const ways = fault.ways?.map((way) => ({ ...way, text: before + way.text + after }));
    return { ...fault, column: begin + (fault.column ?? 0), ways, end };
  }
  if (content.items.some((item) => item === FNC1 || item === SEPARATOR))
    return { why: `(${identifier}) ${entry.name} has a separator in its value: FNC1 is put in where one is due.`, end };
  return { element: { identifier, items: content.items }, end };
}
// The items of elements: FNC1 in front, and at the end of each value of variable length that another element follows.
/** @type {(elements: Written[]) => number[]} */
function joinedItems(elements) {
  const items = [FNC1];
  elements.forEach(({ identifier, items: value }, k) => {
    items.push(...Array.from(identifier, (digit) => digit.charCodeAt(0)), ...value);
    if (k + 1 < elements.length && !entryOf(identifier).isFixed) items.push(FNC1);
  });
  return items;
}
// A content as an element string, or "" if it isn't what that would stand for.
/** @type {(content: Content) => string} */
export function elementString({ items, marks }) {
  if (items[0] !== FNC1 || marks.length) return "";
  const elements = elementsIn(items.slice(1));
  if (elements.some(({ identifier }) => !identifier) || !isSame(joinedItems(elements), items)) return "";
  const spell = (/** @type {number} */ item) => (item === 40 ? "\\(" : spelledItem(item));
  return elements.map(({ identifier, items: value }) => `(${identifier})${value.map(spell).join("")}`).join("");
}
// A content as people read it: as an element string, as text, or as it is spelled.
/** @type {(content: Content) => string} */
export const readable = (content) => elementString(content) || visibleTextOf(content) || spelledContent(content);
// The same as people would type it.
/** @type {(content: Content) => string} */
export const typed = (content) => elementString(content) || unspelled(content) || spelledContent(content);
// What a reader would take apart otherwise than it was written, in words, or "": a value of fixed length runs into what
// follows it if it has another.
/** @type {(elements: Written[], items: number[]) => string} */
function misread(elements, items) {
  const read = elementsIn(items.slice(1));
  const isOdd = (/** @type {Written} */ { identifier, items: value }, /** @type {number} */ k) =>
    read[k]?.identifier !== identifier || read[k].items.length !== value.length;
  const odd = elements.find(isOdd);
  if (!odd) return "";
  const entry = entryOf(odd.identifier), [one, many] = CHARSETS[entry.parts[0].charset].words;
  const due = plural(mostOf(entry.parts), one, many);
  return `(${odd.identifier}) ${entry.name} takes ${due}, and has ${odd.items.length}.`;
}
/** @type {(text: string) => Taken} */
function elementsOfText(text) {
  const elements = [];
  for (let at = 0; at < text.length;) {
    const { element, end, ...fault } = elementAt(text, at);
    if (!element) return fault;
    elements.push(element);
    at = end;
  }
  const items = joinedItems(elements), why = misread(elements, items);
  return why ? { why } : { content: contentOf(items), isElements: true };
}

// The content of an element string, of which each value is right. Throws a RangeError, which says what is wrong.
/** @type {(text: string) => Content} */
export function contentOfElements(text) {
  const none = { why: "An identifier in brackets, such as (01), is wanted." };
  /** @type {Taken} */
  const taken = isElements(text) ? elementsOfText(text) : none;
  if (!taken.content) throw new RangeError(whyNot(taken));
  const wrong = elementsIn(taken.content.items.slice(1)).find(({ fault }) => fault);
  if (wrong) throw new RangeError(`(${wrong.identifier}) ${wrong.name}: ${wrong.fault}`);
  return taken.content;
}

// What a text stands for that is an element string, or a content that is spelled.
/** @type {(text: string) => Taken} */
export function takenAsSpelled(text) {
  const much = tooMuch(text);
  if (much) return { why: much, isTooMuch: true };
  return isElements(text) ? elementsOfText(text) : parse(text);
}
// What a text stands for that is typed: an element string, or text as it stands. Of the ways in which it could be
// spelled only those within a value count, since nothing else is spelled here.
/** @type {(text: string) => Taken} */
export function takenAsTyped(text) {
  if (!isElements(text) || tooMuch(text)) return takenAsText(text);
  const taken = elementsOfText(text);
  return taken.ways ? { ...taken, ways: taken.ways.filter((way) => isElements(way.text)) } : taken;
}
