// Headings of tables of labels, as the command has them: what a column is that has one. The list,
// library/python/ecc200/data/headings.txt, is packed into the page, as the table of identifiers is.
import { isIdentifier } from "./gs1.mjs";

/** @type {Map<string, string>} */
const known = new Map();
// Capitals, spaces, dots, - and _ make no difference.
/** @type {(heading: string) => string} */
const bare = (heading) => heading.toLowerCase().replace(/[\s._-]+/g, "");

// Takes the list: each line has what a column is, and its headings, with commas between.
/** @type {(text: string) => void} */
export function readHeadings(text) {
  for (const line of text.split("\n").filter((each) => each && !each.startsWith("#"))) {
    const [meaning, headings] = line.split(": ");
    for (const heading of headings.split(", ")) known.set(bare(heading), meaning);
  }
}
// What a column of this heading is: an identifier of GS1, message, kind, text, copies, file, size, or - where it is
// left out; or null if that isn't known.
/** @type {(heading: string) => string | null} */
export function knownAs(heading) {
  const given = heading.trim(), [, digits] = /^\(?([0-9]{2,4})\)?$/.exec(given) ?? [];
  if (digits) return isIdentifier(digits) ? digits : null;
  return given === "-" ? given : known.get(bare(given)) ?? null;
}
