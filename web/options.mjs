// Options by their names: one that isn't known is refused, with the nearest that is.

// How many letters make another word of a word: put in, left out, or changed.
/** @type {(one: string, other: string) => number} */
function distance(one, other) {
  let row = Array.from({ length: other.length + 1 }, (_, k) => k);
  for (let i = 1; i <= one.length; i++) {
    const next = [i];
    for (let k = 1; k <= other.length; k++)
      next.push(Math.min(row[k] + 1, next[k - 1] + 1, row[k - 1] + Number(one[i - 1] !== other[k - 1])));
    row = next;
  }
  return row[other.length];
}
// Refuses options of which one has none of these names.
/** @type {(given: object, names: string[]) => void} */
export function demandKnown(given, names) {
  for (const name of Object.keys(given)) {
    if (names.includes(name)) continue;
    const [nearest] = [...names].sort((one, other) => distance(name, one) - distance(name, other));
    throw new TypeError(`there is no option ${name}: the nearest is ${nearest}, of ${names.join(", ")}`);
  }
}
