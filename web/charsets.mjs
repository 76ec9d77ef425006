// Text and the bytes of a content: which charset an ECI assignment means, in which one a text is written, and what
// bytes say in each. The browser's decoders do most of the work.
import { FNC1, there } from "./common.mjs";
import { ECI_UTF_8, contentOf } from "./contents.mjs";

/** @typedef {import("./contents.mjs").Content} Content */
/** @typedef {{ text: string | null, charset: string }} Text of a content, null where some of it is none, and the
    charset by whose name it should be; of several the names stand with commas between, in the order in which they
    come */
const LATIN_1 = "iso-8859-1", UTF_8 = "utf-8", ASCII_TEXT = "us-ascii", IBM_437 = "ibm437";
const PART_16 = "iso-8859-16", WINDOWS_1252 = "windows-1252";
const ECI_LATIN_1 = 3, ECI_BINARY = 899;
const GROUP_SEPARATOR = 29, MOST_OF_ASCII = 127, MOST_OF_LATIN_1 = 255;
// The charsets of ECI assignments, by the names that browsers, Python and iconv have in common.
/** @type {Record<number, string>} */
const CHARSET_OF = {
  0: IBM_437, 1: LATIN_1, 2: IBM_437, 3: LATIN_1, 4: "iso-8859-2", 5: "iso-8859-3", 6: "iso-8859-4", 7: "iso-8859-5",
  8: "iso-8859-6", 9: "iso-8859-7", 10: "iso-8859-8", 11: "iso-8859-9", 12: "iso-8859-10", 13: "iso-8859-11",
  15: "iso-8859-13", 16: "iso-8859-14", 17: "iso-8859-15", 18: PART_16, 20: "shift_jis", 21: "windows-1250",
  22: "windows-1251", 23: WINDOWS_1252, 24: "windows-1256", 25: "utf-16be", 26: UTF_8, 27: ASCII_TEXT, 28: "big5",
  29: "gb2312", 30: "euc-kr", 31: "gbk", 32: "gb18030", 33: "utf-16le", 34: "utf-32be", 35: "utf-32le",
  170: ASCII_TEXT,
};
// What an assignment means: a charset, by its name, or something else.
/** @type {(number: number) => string} */
export const nameOfEci = (number) => CHARSET_OF[number] ?? (number === ECI_BINARY ? "binary" : `ECI ${number}`);

// ---- From bytes

// Charsets that browsers or Node.js lack, or take for others: the last characters of each. Those before are the numbers
// themselves.
const IBM_437_HIGH = "ÇüéâäàåçêëèïîìÄÅÉæÆôöòûùÿÖÜ¢£¥₧ƒáíóúñÑªº¿⌐¬½¼¡«»░▒▓│┤╡╢╖╕╣║╗╝╜╛┐└┴┬├─┼╞╟╚╔╩╦╠═╬╧╨╤╥╙╘╒╓╫"
  + "╪┘┌█▄▌▐▀αßΓπΣσµτΦΘΩδ∞φε∩≡±≥≤⌠⌡÷≈°∙·√ⁿ²■\u00A0";
const PART_16_HIGH = "\u00A0ĄąŁ€„Š§š©Ș«Ź\u00ADźŻ°±ČłŽ”¶·žčș»ŒœŸżÀÁÂĂÄĆÆÇÈÉÊËÌÍÎÏĐŃÒÓÔŐÖŚŰÙÚÛÜĘȚßàáâăäćæçèéêëìí"
  + "îïđńòóôőöśűùúûüęțÿ";
const WINDOWS_1252_HIGH = "€\u0081‚ƒ„…†‡ˆ‰Š‹Œ\u008DŽ\u008F\u0090‘’“”•–—˜™š›œ\u009DžŸ";
const LATIN_1_HIGH = Array.from({ length: 96 }, (_, k) => String.fromCharCode(160 + k)).join("");
/** @type {Record<string, string>} */
const TABLES = { [LATIN_1]: "", [IBM_437]: IBM_437_HIGH, [PART_16]: PART_16_HIGH,
  [WINDOWS_1252]: WINDOWS_1252_HIGH + LATIN_1_HIGH };
/** @type {(bytes: Uint8Array, charset: string) => string} */
function decodedByTable(bytes, charset) {
  const high = TABLES[charset], begin = 256 - high.length;
  return Array.from(bytes, (byte) => (byte < begin ? String.fromCharCode(byte) : high[byte - begin])).join("");
}
/** @type {(bytes: Uint8Array) => string} */
function decodedAsAscii(bytes) {
  if (bytes.some((byte) => byte > MOST_OF_ASCII)) throw new TypeError("not ASCII");
  return decodedByTable(bytes, LATIN_1);
}
// What stands for bytes that a charset hasn't: in those of Windows a control, and in Node.js a private character, which
// those of Unicode and GB 18030 have.
const CONTROL = /[\x80-\x9f]/, OF_WINDOWS = /^windows-/, PRIVATE = /[\uE000-\uF8FF]/, HAS_PRIVATE = /^(?:utf-|gb18030)/;
/** @type {(bytes: Uint8Array, charset: string) => string} */
function decodedBy(bytes, charset) {
  const text = new TextDecoder(charset, { fatal: true, ignoreBOM: true }).decode(bytes);
  if (PRIVATE.test(text) && !HAS_PRIVATE.test(charset)) throw new TypeError(`not ${charset}`);
  return text;
}
// In a part of ISO 8859 a byte below 160 is the character of this number; browsers have those of Windows in some parts.
const FIRST_OF_ISO_8859 = 160, SPACE = 32;
/** @type {(bytes: Uint8Array, charset: string) => string} */
function decodedInIso8859(bytes, charset) {
  const isOwn = (/** @type {number} */ byte) => byte < FIRST_OF_ISO_8859;
  const high = bytes.map((byte) => (isOwn(byte) ? SPACE : byte));
  return Array.from(decodedBy(high, charset), (character, k) =>
    (isOwn(bytes[k]) ? String.fromCharCode(bytes[k]) : character)).join("");
}
/** @type {(bytes: Uint8Array, charset: string) => string} */
function decodedInUtf32(bytes, charset) {
  const view = new DataView(bytes.buffer, bytes.byteOffset, bytes.length), isLittle = charset.endsWith("le");
  if (bytes.length % 4) throw new TypeError("not UTF-32");
  const points = Array.from({ length: bytes.length / 4 }, (_, k) => view.getUint32(4 * k, isLittle));
  if (points.some((point) => point >= 0xd800 && point < 0xe000)) throw new TypeError("not UTF-32");
  return points.map((point) => String.fromCodePoint(point)).join("");
}
/** @type {(charset: string) => (bytes: Uint8Array, charset: string) => string} */
function decoderOf(charset) {
  if (charset === ASCII_TEXT) return decodedAsAscii;
  if (charset in TABLES) return decodedByTable;
  if (charset.startsWith("iso-8859-")) return decodedInIso8859;
  return charset.startsWith("utf-32") ? decodedInUtf32 : decodedBy;
}
// What bytes are as text in a charset, or null; so where it is the name of none.
/** @type {(bytes: Uint8Array, charset: string) => string | null} */
function textBy(bytes, charset) {
  try {
    const text = decoderOf(charset)(bytes, charset);
    return OF_WINDOWS.test(charset) && CONTROL.test(text) ? null : text;
  } catch { return null; }
}
/** @type {(bytes: Uint8Array) => boolean} */
const isUtf8 = (bytes) => textBy(bytes, UTF_8) !== null;

/** @type {(items: number[]) => Uint8Array} */
export const bytesOf = (items) => Uint8Array.from(items, (item) => (item === FNC1 ? GROUP_SEPARATOR : item));
// The charsets of a content, each with its items, but for an FNC1 in front: without a mark UTF-8 where the bytes are
// that, else ISO 8859-1.
/** @type {(content: Content) => { charset: string, items: number[] }[]} */
function stretchesOf({ items, marks }) {
  /** @type {{ charset: string, items: number[] }[]} */
  const stretches = [], front = items[0] === FNC1 ? 1 : 0;
  const behind = marks.map(({ place, number }) => ({ place: Math.max(place, front), number }));
  const begins = [{ place: front, number: null }, ...behind];
  begins.forEach(({ place, number }, k) => {
    const own = items.slice(place, begins[k + 1]?.place), last = stretches[stretches.length - 1];
    if (!own.length) return;
    const charset = number !== null ? nameOfEci(number) : isUtf8(bytesOf(own)) ? UTF_8 : LATIN_1;
    if (last?.charset === charset) last.items.push(...own); else stretches.push({ charset, items: own });
  });
  return stretches;
}
/** @type {(content: Content) => Text} */
export function textOf(content) {
  const stretches = stretchesOf(content), names = [...new Set(stretches.map(({ charset }) => charset))];
  const texts = stretches.map(({ charset, items }) => textBy(bytesOf(items), charset));
  return { text: texts.includes(null) ? null : texts.join(""), charset: names.join(", ") || UTF_8 };
}

// ---- From text

// What ZXing and zxing-cpp take for UTF-8 where nothing is marked, and what can be Shift JIS to them: there half-width
// katakana take one byte and other letters two.
const LIKE_UTF_8 =
  /^(?:[\0-\x7f]|[\xc0-\xdf][\x80-\xff]|[\xe0-\xef][\x80-\xff]{2}|[\xf0-\xf7][\x80-\xff]{3})*$/;
const LIKE_SHIFT_JIS = /^(?:[\0-\x7f\xa1-\xdf]|[\x81-\x9f\xe0-\xef][@-~\x80-\xfc])*$/;
const RUNS_OF_SHIFT_JIS = /([\xa1-\xdf]+)|((?:[\x81-\x9f\xe0-\xef][@-~\x80-\xfc])+)/g;
const SIGNS = /[\xa0-\xbf\xd7\xf7]/g, SURE_RUN = 3;
// Whether ZXing and zxing-cpp (TextDecoder::GuessEncoding) take a text in ISO 8859-1 for Shift JIS, where nothing is
// marked: what can be that, if some run has three letters that aren't ASCII, or if there are controls. Else if all
// katakana are one run of two, or if a tenth of the text are signs rather than letters.
/** @type {(text: string) => boolean} */
function isGuessedShiftJis(text) {
  if (!LIKE_SHIFT_JIS.test(text)) return false;
  const runs = [...text.matchAll(RUNS_OF_SHIFT_JIS)].map(([, katakana = "", pairs = ""]) => ({ katakana, pairs }));
  /** @type {(run: { katakana: string, pairs: string }) => boolean} */
  const isSure = ({ katakana, pairs }) => Math.max(katakana.length, pairs.length / 2) >= SURE_RUN;
  if (runs.some(isSure) || CONTROL.test(text)) return true;
  const lengths = runs.map(({ katakana }) => katakana.length).filter(Boolean);
  return String(lengths) === "2" || 10 * (text.match(SIGNS) ?? []).length >= text.length;
}
// Whether readers take a text in ISO 8859-1 for that text, where nothing is marked.
/** @type {(text: string) => boolean} */
const isClear = (text) => ALL_ASCII.test(text) || !(LIKE_UTF_8.test(text) || isGuessedShiftJis(text));
const ALL_ASCII = /^[\0-\x7f]*$/;
// In which charsets text is written that ISO 8859-1 hasn't, beside UTF-8: those that zxing-cpp 1.4.0 reads behind their
// assignments, by trial of each code. Of each the codes by their least and greatest bytes, and those of them that
// zxing-cpp, browsers, Node.js or Python have for other characters or twice.
const PART = ["a0-ff", ""], OF_ALL_BYTES = ["80-ff", ""];
/** @type {Record<number, string[]>} */
const ALIKE = {
  ...Object.fromEntries([4, 5, 6, 7, 8, 11, 12, 15, 16, 17, 18].map((number) => [number, PART])),
  ...Object.fromEntries([21, 22, 23, 24].map((number) => [number, OF_ALL_BYTES])),
  9: ["a0-ff", "a4 a5 aa"], 10: ["a0-ff", "af fd fe"], 13: ["a1-ff", ""],
  20: ["a1-df 8140-84fc 8840-9ffc e040-eafc", "1a 1c 7f 8160 8161 817c 8191 8192 81ca"],
  28: ["a140-c5fe c640-c67e c940-f8fe f940-f9d5",
    "a145 a14e a1c2 a1e3 a1f2 a1f3 a1fe a240 a241 a242 a244 a246 a247 a2cc a2ce a3e1"],
  29: ["a1a1-a1fe a2b1-a2e2 a2e5-a2ee a2f1-a2fc a3a1-a3fe a4a1-a4f3 a5a1-a5f6 a6a1-a6b8 a6c1-a6d8 a7a1-a7c1 a7d1-a7f1"
    + " a8a1-a8ba a8c5-a8e9 a9a4-a9ef b0a1-d6fe d7a1-d7f9 d8a1-f7fe", "a1a4 a1aa"],
  30: ["a1a1-c8fe caa1-fdfe", "a2e6 a2e7 a4d4"],
};
/** @type {(code: number) => number[]} */
const bytesOfCode = (code) => (code > 255 ? [code >> 8, code & 255] : [code]);
// The codes of which each byte is between those of two.
/** @type {(span: string) => number[]} */
function codesBetween(span) {
  const [least, most] = span.split("-").map((hex) => parseInt(hex, 16)), codes = [];
  for (let code = least; code <= most; code++)
    if ((code & 255) >= (least & 255) && (code & 255) <= (most & 255)) codes.push(code);
  return codes;
}
// What each of some codes, all of one length, is as text; for what is no character, another text than one character.
/** @type {(codes: number[], charset: string) => (string | null)[]} */
function charactersOf(codes, charset) {
  const [first] = codes, ends = new Uint8Array(3 * codes.length).fill(LINE_END);
  if (first < 256) return codes.map((code) => textBy(Uint8Array.of(code), charset));
  for (const [k, code] of codes.entries()) ends.set(bytesOfCode(code), 3 * k);
  return new TextDecoder(charset).decode(ends).split("\n");
}
const LINE_END = 10, REPLACEMENT = "\uFFFD";
/** @type {Map<number, Map<string, number>>} */
const codesKnown = new Map();
// The codes of the characters of a charset that all have alike, by these characters.
/** @type {(number: number) => Map<string, number>} */
function codesOf(number) {
  const known = codesKnown.get(number), [spans, unlike] = ALIKE[number], table = known ?? new Map();
  if (known) return known;
  const left = new Set(unlike.split(" ").map((hex) => parseInt(hex, 16)));
  for (const span of `00-7f ${spans}`.split(" ")) {
    const codes = codesBetween(span), characters = charactersOf(codes, CHARSET_OF[number]);
    const isOne = (/** @type {string | null | undefined} */ it) => it?.length === 1 && it !== REPLACEMENT;
    for (const [k, code] of codes.entries())
      if (isOne(characters[k]) && !left.has(code)) table.set(characters[k], code);
  }
  codesKnown.set(number, table);
  return table;
}
// The contents by which a text is written. Text that ISO 8859-1 has is that, with a mark where readers would take the
// bytes for another text. Other text is in UTF-8 or, behind its mark too, in any charset that all have alike: the first
// of those whose symbol is smallest is taken.
/** @type {(text: string) => Content[]} */
export function waysOfText(text) {
  const units = Array.from({ length: text.length }, (_, k) => text.charCodeAt(k)), characters = Array.from(text);
  const marked = (/** @type {number} */ number) => [{ place: 0, number }];
  if (units.every((unit) => unit <= MOST_OF_LATIN_1))
    return [contentOf(units, isClear(text) ? [] : marked(ECI_LATIN_1))];
  const hasAll = (/** @type {number} */ number) => characters.every((it) => codesOf(number).has(it));
  const bytesIn = (/** @type {number} */ number) =>
    characters.flatMap((it) => bytesOfCode(there(codesOf(number).get(it))));
  return [contentOf([...new TextEncoder().encode(text)], marked(ECI_UTF_8)),
    ...Object.keys(ALIKE).map(Number).filter(hasAll).map((number) => contentOf(bytesIn(number), marked(number)))];
}
// The content of a text that is to be taken apart. A part of it is clear by itself: it has a mark, unless all is ASCII.
/** @type {(content: Content) => Content} */
export function markedThroughout(content) {
  const isPlain = content.marks.length > 0 || content.items.every((item) => item <= MOST_OF_ASCII);
  return isPlain ? content : { ...content, marks: [{ place: 0, number: ECI_LATIN_1 }] };
}
