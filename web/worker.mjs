// The worker: it has the library, and answers the page's questions, one at a time. A question is { number, kind, given
// }, its answer { number, answer } or, if something went wrong, { number, failed }.
import { readsFiles } from "./bitmap.mjs";
import { ASCII, SHORTER, SMALLEST, SQUARE, TOO_LONG, messageOf, there } from "./common.mjs";
import { Ecc200 } from "./ecc200.mjs";
import { damaged, examine, mostThatFit, plainMap } from "./examine.mjs";
import { found, gridFrom } from "./grids.mjs";
import { firstInPicture, foundBefore, restOfPicture, warmUp } from "./pictures.mjs";

/** @typedef {import("./common.mjs").Grid} Grid */
/** @type {Ecc200} */
let ecc200;
/** @type {import("./library.mjs").Library} */
let lib;
const PROFILES = [ASCII, SHORTER], ALL_FORMS = [...PROFILES, SMALLEST];
const LARGE = 1.2e8; // bytes of the sampler's memory, which never shrinks: the worker is ended after more
// In the smallest square.
/** @type {(form: number) => import("./library.mjs").How} */
const squarely = (form) => ({ form, shape: SQUARE, rows: 0, columns: 0 });

// What is shown of a symbol; the map of its shape goes along.
/** @type {(grid: Grid, doubtful?: Uint8Array | null, limit?: import("./common.mjs").Limit) =>
    import("./examine.mjs").Seen} */
const seen = (grid, doubtful = null, limit = null) =>
  ({ ...examine(lib, grid, doubtful, limit), map: plainMap(lib.map(grid)) });
/** @type {(symbol: any) => any} */
const shownOf = (symbol) =>
  (symbol.modules ? { ...symbol, seen: seen(symbol, symbol.doubtful ?? null, symbol.limit ?? null) } : symbol);

// A symbol with its normal grids under both profiles, where it has them.
/** @type {(symbol: any) => any} */
function judged(symbol) {
  if (!symbol.modules) return symbol;
  const shown = shownOf(symbol), { limit, answer } = shown.seen;
  const under = (/** @type {number} */ profile) => {
    const normal = lib.normal(symbol, limit, profile, symbol.doubtful ?? null);
    return normal.fault ? null : normal;
  };
  return { ...shown, normals: answer.fault ? PROFILES.map(() => null) : PROFILES.map(under) };
}
/** @type {(text: string) => any} */
const gridGiven = (text) => {
  const { why, grid } = gridFrom(text, lib);
  return grid ? found(lib, grid) : { why };
};
// What was found in a picture; with what is shown of the first symbol that is wanted, and of what isn't read.
/** @type {(sights: import("./pictures.mjs").Sights | null, most: number) => any} */
const sightsShown = (sights, most) => sights && { ...sights, unread: sights.unread.map(shownOf),
  symbols: sights.symbols.map((symbol, k) => (k < most ? shownOf(symbol) : symbol)),
  isLarge: ecc200.sampler.size > LARGE };
/** @type {(given: any) => Promise<any>} */
const picture = async (given) =>
  sightsShown(await firstInPicture(ecc200, given, (/** @type {string} */ progress) => postMessage({ progress })), 1);
// The first symbol of them, or the grid that the picture is, or why there is none.
/** @type {(sights: import("./pictures.mjs").Sights) => any} */
const oneOf = ({ symbols, unread, why }) => {
  const { fault, ...symbol } = symbols[0] ?? unread.find(({ isExact }) => isExact) ?? { why };
  return symbol;
};

/** @type {Record<string, (given: any) => any>} */
const ANSWERS = {
  async load({ library, sampler, isForPictures }) {
    ecc200 = await Ecc200.load(library, sampler);
    lib = ecc200.library;
    if (isForPictures) setTimeout(warmUp, 0, ecc200); // once this is answered
    return { readsFiles: await readsFiles(), sizes: [...lib.sizes.values()] };
  },
  // The symbol of one of some contents, in the way to write them that takes the fewest modules, and the shapes that it
  // has in each form; or of the first of them that no size holds why, and how many items would fit.
  write({ ways, at = 0, how, hasLook = true }) {
    const { way, symbols } = lib.writeSmallest(ways, how), bad = symbols.findIndex(({ fault }) => fault);
    const shown = bad < 0 ? at : bad;
    const inForm = (/** @type {number} */ form) => lib.writeSmallest(ways, { ...how, form }).symbols[shown];
    const shapes = ALL_FORMS.map(inForm).map(({ fault, rows, columns }) => (fault ? null : { rows, columns }));
    if (bad < 0)
      return { ...symbols[at], way, shapes, seen: hasLook ? seen(/** @type {Grid} */ (symbols[at])) : null };
    const fault = there(symbols[bad].fault), isTooLong = fault.code === TOO_LONG;
    return { fault, way, at: bad, shapes, fits: isTooLong ? mostThatFit(lib, ways[way][bad], how) : null };
  },
  look: ({ grid, doubtful, limit }) => seen(grid, doubtful, limit),
  damage: ({ act, original, grid, doubtful, limit }) =>
    seen(damaged(lib, act, grid, original, doubtful), doubtful, limit),
  grid: (text) => shownOf(gridGiven(text)),
  picture,
  rest: () => sightsShown(restOfPicture(ecc200), 0),
  again: (list) => sightsShown(foundBefore(lib, list), 1),
  // What stands in one side of the comparison: the ways to write a content, the text of a grid, a symbol, or a picture;
  // or what it may be, where several symbols are in that.
  async judge({ ways, grid, symbol: chosen, picture: image }) {
    if (chosen) return judged(chosen);
    if (image) {
      const sights = await picture({ ...image, shown: 0 });
      return sights.symbols.length > 1 ? { symbols: sights.symbols } : judged(oneOf(sights));
    }
    if (grid !== undefined) return judged(gridGiven(grid));
    const written = PROFILES.map((form) => lib.writeSmallest(ways, squarely(form)).symbols[0]);
    const symbol = written.find(({ fault }) => !fault);
    if (!symbol) return { fault: written[0].fault };
    return judged({ ...symbol, isRead: true, how: "" });
  },
  // Of many lines, each with the ways to write it, the way that is taken, and its symbols, or null for one that fits no
  // size.
  sheet: ({ lines, how }) => lines.map((/** @type {import("./contents.mjs").Content[][]} */ ways) => {
    const { way, symbols } = lib.writeSmallest(ways, how);
    return { way, symbols: symbols.map((symbol) => (symbol.fault ? null : symbol)) };
  }),
};

addEventListener("message", async ({ data: { number, kind, given } }) => {
  try {
    const answer = await ANSWERS[kind](given);
    postMessage({ number, answer }, { transfer: answer?.view ? [answer.view] : [] });
  } catch (why) {
    postMessage({ number, failed: messageOf(why) });
  }
});
