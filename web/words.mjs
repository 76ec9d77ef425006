// Refusals and corrections in words.
import {
  ANY, BLOCK_FAULT, BORDER_FAULT, EXTENDED, MOST_LIMIT, ONE, RECTANGLE, TOO_LONG, plural, shapeWords, there,
} from "./common.mjs";

/** @type {Record<number, string>} */
const MISPLACED = { 233: "structured append", 234: "reader programming", 236: "macro 05", 237: "macro 06" };

/** @typedef {import("./examine.mjs").Seen} Seen */
// Why a block is beyond correction, which has doubtful codewords or not.
/** @type {(seen: Seen, block: number) => string} */
function blockRefusal({ size, erased }, block) {
  const where = size.blocks > 1 ? ` in block ${block + 1} of ${size.blocks}` : "", doubtful = erased[block];
  const checks = size.check / size.blocks, whose = size.blocks > 1 ? "Its" : "The";
  if (!doubtful) return `More than ${size.limit} codewords are wrong${where}. ${whose} ${checks} check codewords `
    + "correct no more than that, and nothing is guessed.";
  const are = `${plural(doubtful, "codeword is", "codewords are")} doubtful${where}`;
  if (doubtful > checks) return `${are}, and ${whose.toLowerCase()} ${checks} check codewords replace no more than `
    + `${checks}.`;
  const others = Math.floor((checks - doubtful) / 2);
  const wrong = others ? `more than ${others} are wrong` : "some are wrong";
  return `${are}, and of the others ${wrong}. ${whose} ${checks} check codewords bear no more `
    + "than that: a doubtful codeword takes one of them, and a wrong one two.";
}
/** @type {Record<number, string>} by shape */
const NONE_HOLDS = {
  [RECTANGLE]: "No rectangle up to 16 × 48 modules holds", [EXTENDED]: "No rectangle up to 26 × 64 modules holds",
  [ANY]: "No size holds",
};
// Of a message that isn't written, where it isn't to be a square.
/** @type {(how: import("./library.mjs").How) => string} */
export function tooLong(how) {
  const none = how.shape === ONE ? `${shapeWords(how)} modules don’t hold` : NONE_HOLDS[how.shape];
  return `${none ?? "No square up to 144 × 144 modules holds"} this message in this form.`;
}
/** @type {(fault: { code: number, value: number, place: number }, seen?: Seen) => string} */
export function refusal({ code, value, place }, seen = undefined) {
  const at = `data codeword ${place}`;
  switch (code) {
    case BORDER_FAULT: {
      const count = plural(value, "module", "modules"), have = value === 1 ? "has" : "have";
      const wrong = `${count} of the border ${have} the wrong colour`;
      return `${wrong}, and ${seen?.limit} may. The message may still be readable: accept more under “Details”.`;
    }
    case BLOCK_FAULT: return blockRefusal(there(seen), place);
    case 7: return `The value of ${at}, 0 or 242 to 255, is one that the standard reserves.`;
    case 8: return `Data codeword ${place} begins ${MISPLACED[value]}, which is read only as the first codeword.`;
    case 9: return `No character follows the Upper Shift that ${at}, or the pair that begins there, holds.`;
    case 10: return `A pair of C40, Text or X12 codewords doesn’t stand for three values: ${at} and the next.`;
    case 11: return `A value in a pair of C40 or Text has no meaning: ${at} and the next.`;
    case 12: return `The length of the Base 256 segment at ${at} is missing, ill-formed or too large.`;
    case 13: {
      const shift = `the Upper Shift that ${at}, or the pair that begins there, holds`;
      return `The run or the symbol ends before the character that is due after ${shift}.`;
    }
    case 20: return `What follows the ECI that ${at} begins is no designator of a number.`;
    case 21: return "The structured append that the first codewords begin is no part of 2 to 16.";
    case 23: return "A part is one of 2 to 16, and its file has two numbers from 1 to 254.";
    case TOO_LONG: return "No square up to 144 × 144 modules holds this message in this form.";
    default: return `Refused: ${code} ${value} ${place}.`;
  }
}
/** @type {(text: string, limit?: number) => string} */
export const noLimit = (text, limit) =>
  `${text || "This"} isn’t a whole number from 0 to ${MOST_LIMIT}: ${limit ?? "the usual limit"} is taken.`;
/** @type {(list: number[]) => number} */
const sumOf = (list) => list.reduce((a, b) => a + b, 0);
// What had to be corrected or accepted, in words; empty if nothing had.
/** @type {(answer: { corrected?: number[], erased?: number[], border?: number }) => string} */
export function borne({ corrected = [], erased = [], border = 0 }) {
  const sum = sumOf(corrected), doubtful = sumOf(erased), parts = [];
  if (sum) parts.push(`${plural(sum, "wrong codeword was", "wrong codewords were")} corrected`);
  if (doubtful) parts.push(`${plural(doubtful, "doubtful codeword was", "doubtful codewords were")} replaced`);
  const have = plural(border, "module of the border has", "modules of the border have");
  if (border) parts.push(`${have} the wrong colour`);
  return parts.join(", and ");
}
// Where a block has spent all its checks on doubtful codewords, it would have been read whatever it held.
/** @type {(erased: number[], left: number[]) => string} */
export function spentBy(erased, left) {
  const spent = erased.findIndex((count, b) => count && !left[b]);
  if (spent < 0) return "";
  const which = erased.length > 1 ? `In block ${spent + 1} no` : "No";
  return ` ${which} check codeword is left to tell whether that is right.`;
}
/** @type {(symbol: { isRead: boolean, how: string }, as: string) => string} */
export function stood({ isRead, how }, as) {
  const shown = how ? `shown upright, as if it were ${how}` : "shown as it stands";
  if (!isRead) return `It can’t be read as it stands, nor turned, mirrored or inverted. It is ${shown}.`;
  return how ? `${as} ${how}: found by trying, and shown upright.` : "Read as it stands.";
}
