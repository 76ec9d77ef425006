// The symbols in a picture: found by the sampler, in bounded time, or taken as they are where the picture is a grid.
import { bitmapOf, drawn, penOf } from "./bitmap.mjs";
import { ASCII, SQUARE, there } from "./common.mjs";
import { contentOf } from "./contents.mjs";
import { luminanceOf } from "./ecc200.mjs";
import { found, hasBorder, hasShape } from "./grids.mjs";
import { SAMPLER } from "./layouts.mjs";
import { extent, gridsOfPixels } from "./pixels.mjs";
import { unspread } from "./quality.mjs";
import { ANY_TIME } from "./sampler.mjs";

/** @typedef {import("./ecc200.mjs").Ecc200} Ecc200 */
/** @typedef {import("./bitmap.mjs").Planes} Planes */
/** @typedef {import("./sampler.mjs").Point} Point */
/** @typedef {import("./common.mjs").Grid} Grid */
/** @typedef {import("./contents.mjs").Content} Content */
/** @typedef {import("./common.mjs").Limit} Limit */
/** @typedef {Grid & Content & { corners: import("./sampler.mjs").Point[], isRead: boolean, how: string,
    symbology: string, border: number, corrected: number[], erased: number[], doubtful: Uint8Array | null, limit: Limit,
    fault: any, isExact?: boolean, quality?: import("./quality.mjs").Quality | null }} Sighted a symbol in a picture,
    with what it says; its limit is null where that is the usual one; it is exact if the picture is its grid; and how
    good its print is, where it isn't */
/** @typedef {Grid & { corners: import("./sampler.mjs").Point[], isRead: boolean, how: string,
    doubtful: Uint8Array | null, limit: Limit, picture?: string }} Kept of a symbol in a list that was saved */
/** @typedef {{ grey: Uint8Array, width: number, height: number, scale: number, contrast: number,
    between: [number, number], isOneColour: boolean, view: ImageBitmap | null }} Look at a picture: `scale` of its
    pixels each way make one; by how much its greys differed, and between which they are now; and as it is shown */
/** @typedef {{ why?: string, symbols: Sighted[], unread: Sighted[], other?: string, isComplete: boolean,
    notes: string, left: number, width: number, height: number, view?: ImageBitmap | null }} Sights in a picture; which
    code of another kind it shows, as "a QR code"; how much of its time is left */
const MOST_TIME = 3000, TIME_OF_CODES = 200; // milliseconds for a picture, of which for other codes at least
const MOST_SYMBOLS = 400, MOST_UNREAD = 8;
// Of 255: below the first nothing is told apart, below the second greys are spread.
const NO_CONTRAST = 4, LITTLE_CONTRAST = 32;
const MANY = 1e6, SOME = 7; // pixels, of which every so many are enough where greys differ by more than a little

// ---- The picture

const EVEN = 0xfefefefe, OPAQUE = 0xff000000; // of four bytes
/** @type {(one: number, other: number) => number} */
const mean = (one, other) => ((one & EVEN) >>> 1) + ((other & EVEN) >>> 1);
/** @typedef {(x: number, y: number, half: number) => number} Colour of four pixels that are half a step apart */
/** @type {(pixels: Uint32Array, width: number) => Colour} */
const ofPixels = (pixels, width) => (x, y, half) => {
  const at = y * width + x, below = at + half * width;
  if (!half) return pixels[at];
  return mean(mean(pixels[at], pixels[at + half]), mean(pixels[below], pixels[below + half])) | OPAQUE;
};
/** @type {(value: number) => number} */
const byteOf = (value) => (value < 0 ? 0 : value > 255 ? 255 : value | 0);
/** @type {(planes: Planes) => Colour} */
const ofPlanes = ({ data, width, blue, red, across, down }) => (x, y, half) => {
  const at = y * width + x, below = at + half * width;
  const grey = (data[at] + data[at + half] + data[below] + data[below + half] + 2) >> 2;
  const b = data[blue.offset + (y >> down) * blue.stride + (x >> across)] - 128;
  const r = data[red.offset + (y >> down) * red.stride + (x >> across)] - 128;
  const green = byteOf(grey - 0.344 * b - 0.714 * r);
  return byteOf(grey + 1.402 * r) | (green << 8) | (byteOf(grey + 1.772 * b) << 16) | OPAQUE;
};
// A picture as it is shown, with at most so many pixels on a side: of every few pixels each way the mean of four.
/** @type {(size: { width: number, height: number }, shown: number, colour: Colour) => ImageBitmap} */
function viewOf({ width, height }, shown, colour) {
  const step = Math.ceil(Math.max(width, height) / shown), half = step >> 1;
  const across = Math.max(1, Math.floor(width / step)), down = Math.max(1, Math.floor(height / step));
  const small = penOf(across, down), all = small.createImageData(across, down), to = new Uint32Array(all.data.buffer);
  for (let r = 0, k = 0; r < down; r++)
    for (let c = 0; c < across; c++, k++) to[k] = colour(c * step, r * step, half);
  small.putImageData(all, 0, 0);
  return small.canvas.transferToImageBitmap();
}
// Spreads greys that differ little over the whole range; by how much they differed, and between which they are now.
/** @type {(grey: Uint8Array) => { contrast: number, between: [number, number] }} */
function spread(grey) {
  const some = grey.length > MANY ? extent(grey, SOME) : [0, 0], isEnough = some[1] - some[0] >= LITTLE_CONTRAST;
  const [least, most] = isEnough ? some : extent(grey), contrast = most - least;
  if (contrast < NO_CONTRAST || contrast >= LITTLE_CONTRAST) return { contrast, between: [least, most] };
  for (let k = 0; k < grey.length; k++) grey[k] = ((grey[k] - least) * 255) / contrast;
  return { contrast, between: [0, 255] };
}
// Of a picture that is opened; `by` of its pixels each way make one of the bitmap. It is shown with at most so many
// pixels on a side, or not at all.
/** @type {(opened: import("./bitmap.mjs").Opened, shown: number) => Look} */
function lookOf({ planes, bitmap, picture: given = null, by = 1, isOpaque = false }, shown) {
  if (planes) {
    const { width, height } = planes, grey = planes.data.subarray(0, width * height);
    const view = shown ? viewOf(planes, shown, ofPlanes(planes)) : null, { contrast, between } = spread(grey);
    return { width, height, scale: 1, grey, contrast, between, isOneColour: contrast === 0, view };
  }
  const { picture, share } = given ? { picture: given, share: 1 } : drawn(there(bitmap), isOpaque);
  const { width, height } = picture, pixels = new Uint32Array(picture.data.buffer);
  const grey = luminanceOf(picture), { contrast, between } = spread(grey);
  const isOne = contrast === 0 && pixels.every((pixel) => pixel === pixels[0]);
  const view = shown ? viewOf(picture, shown, ofPixels(pixels, width)) : null;
  return { width, height, scale: by / share, grey, contrast, between, isOneColour: isOne, view };
}
/** @type {(look: Look) => string} */
function alike({ contrast, isOneColour: isOne }) {
  if (isOne) return "The picture has only one colour.";
  return `All of the picture is about equally bright: its greys differ by ${contrast} of 255.`;
}

// ---- What stands in it

// How a symbol stands, by its corners.
/** @type {(symbol: import("./sampler.mjs").Found) => string} */
function standing({ corners, isInverted, isMirrored }) {
  const [from, to] = isMirrored ? [corners[1], corners[0]] : corners;
  const angle = Math.round((Math.atan2(to.y - from.y, to.x - from.x) * 180) / Math.PI), size = Math.abs(angle);
  const by = size === 90 ? "a quarter" : `by ${size}°`, side = angle > 0 ? "right" : "left";
  const turned = size < 3 ? "" : size === 180 ? "turned upside down" : `turned ${by} to the ${side}`;
  const ways = [isInverted && "inverted, light for dark", isMirrored && "mirrored left to right", turned];
  return ways.filter(Boolean).join(", and ");
}
/** @type {(lib: import("./library.mjs").Library, look: Look) => (symbol: import("./sampler.mjs").Found) =>
    Sighted} */
const sightedBy = (lib, { scale, contrast, between: [least, most] }) => (symbol) => {
  const { rows, columns, modules, doubtful, border, corrected, erased, fault, hasMargin, limit } = symbol;
  const { items, marks, head, symbology } = symbol;
  const corners = symbol.corners.map(({ x, y }) => ({ x: x * scale, y: y * scale }));
  return { rows, columns, modules, doubtful, items, marks, head, symbology, border, corrected, erased, fault, corners,
    isRead: !fault && hasMargin, quality: unspread(symbol.quality, contrast / (most - least)),
    how: standing(symbol), limit: limit === lib.usualLimit(symbol) ? null : limit };
};
// The symbols of a look, as many as are wanted, in reading order; found by the time `end` at the latest.
/** @type {(ecc200: Ecc200, look: Look, most: number, end: number) => Sights} */
function sampled({ library, sampler }, look, most, end) {
  const { grey, width, height, scale } = look, sighted = sightedBy(library, look);
  const milliseconds = Math.min(ANY_TIME, Math.max(1, end - performance.now()));
  const { symbols, unread, ended, hasNoMemory } =
    sampler.find(grey, width, height, { most, mostUnread: MOST_UNREAD, milliseconds, quality: true });
  return { symbols: symbols.map(sighted), unread: unread.map(sighted),
    isComplete: ended === SAMPLER.WHOLE,
    notes: "", left: end - performance.now(), width: width * scale, height: height * scale,
    why: hasNoMemory ? "There is no memory for this picture." : "" };
}
// The symbol of a picture that is a grid; one that isn't read has the border of a symbol at least; null if there is
// none.
/** @type {(ecc200: Ecc200, look: Look) => Sighted | null} */
function gridSymbol({ library }, { grey, width, scale, between }) {
  const all = gridsOfPixels(grey, width, between).filter(({ grid }) => hasShape(library, grid));
  const some = all.map(({ grid, frame }) => ({ ...found(library, grid), grid, frame }));
  const symbol = some.find(({ isRead }) => isRead) ?? some.find(({ grid }) => hasBorder(library, grid));
  if (!symbol) return null;
  const { frame: { left, top, width: wide, height: high }, isRead, how, rows, columns, modules, limit = null } = symbol;
  const corners = [[left, top], [left + wide, top], [left + wide, top + high], [left, top + high]]
    .map(([x, y]) => ({ x: x * scale, y: y * scale }));
  return readAs(library, { rows, columns, modules, corners, isRead, how, doubtful: null, limit });
}
// A symbol with what the library says of it.
/** @type {(library: import("./library.mjs").Library, symbol: Kept) => Sighted} */
function readAs(library, symbol) {
  const limit = library.limitOf(symbol, symbol.limit, symbol.doubtful);
  const answer = library.read(symbol, limit, symbol.doubtful), { fault = null } = answer;
  const { items = [], marks = [], head = null, symbology = "" } = answer, said = { items, marks, head, symbology };
  const { border = 0, corrected = [], erased = [] } = answer;
  return { ...symbol, isRead: symbol.isRead && !fault, ...said, border, corrected, erased, fault };
}
// What a list that was saved has, as the library reads it now.
/** @type {(library: import("./library.mjs").Library, list: import("./listed.mjs").List) => Sights} */
export function foundBefore(library, { symbols, isComplete }) {
  const all = symbols.filter((symbol) => library.sizeOf(symbol)).map((symbol) => readAs(library, symbol));
  return { ...nothing(""), isComplete, symbols: all.filter(({ isRead }) => isRead),
    unread: all.filter(({ isRead }) => !isRead) };
}
// Whether a place is inside of a convex shape of these corners.
/** @type {(corners: import("./sampler.mjs").Point[], at: { x: number, y: number }) => boolean} */
function isInside(corners, { x, y }) {
  const sides = corners.map((from, k) => {
    const to = corners[(k + 1) % corners.length];
    return (to.x - from.x) * (y - from.y) > (to.y - from.y) * (x - from.x);
  });
  return sides.every((side) => side === sides[0]);
}
// Which code of another kind there is, and of what isn't read what has neither its middle nor a corner in it: what
// looks like a symbol there is none.
/** @type {(ecc200: Ecc200, look: Look, unread: Sighted[]) => { other: string, unread: Sighted[] }} */
function besideOther({ sampler }, { grey, width, height, scale }, unread) {
  const other = sampler.otherCode(grey, width, height);
  /** @type {(it: Sighted) => boolean} */
  const isApart = ({ corners: at }) => [...at, { x: (at[0].x + at[2].x) / 2, y: (at[0].y + at[2].y) / 2 }]
    .every(({ x, y }) => !other || !isInside(other.corners, { x: x / scale, y: y / scale }));
  return { other: other?.name ?? "", unread: unread.filter(isApart) };
}

// ---- Questions

const NEAR = 3; // pixels
/** @type {(one: Point, other: Point) => boolean} */
const isNear = (one, other) => Math.hypot(one.x - other.x, one.y - other.y) < NEAR;

/** @type {{ look: Look, sights: Sights, end: number } | null} the picture that was looked at last, if not all is said
    of it, and when its time is over */
let kept = null;
/** @type {(why: string) => Sights} */
const nothing = (why) => ({ why, symbols: [], unread: [], isComplete: true, notes: "", left: 0, width: 0, height: 0 });
const NONE_FOUND = "No symbol that can be read was found in the picture.";

// The first symbol in a picture, or why there is none; with a small picture to be shown, of at most `shown` pixels on a
// side, if that is asked for.
/** @type {(ecc200: Ecc200, given: import("./bitmap.mjs").Opened & { file?: Blob, most?: number, time?: number,
    shown?: number }, tell: any) => Promise<Sights>} */
export async function firstInPicture(ecc200, { file, most = 1, time = MOST_TIME, shown = 0, ...given }, tell) {
  kept = null;
  const opened = file ? await bitmapOf(file) : given;
  if (opened.why) return nothing(opened.why);
  const look = lookOf(opened, shown);
  if (look.contrast < NO_CONTRAST) return { ...nothing(alike(look)), view: look.view };
  tell("looking for symbols");
  const end = performance.now() + time;
  const grid = gridSymbol(ecc200, look), isGrid = grid?.isRead;
  const size = { width: look.width * look.scale, height: look.height * look.scale };
  const sights = isGrid ? { ...nothing(""), symbols: [grid], ...size }
    : sampled(ecc200, look, most, end - TIME_OF_CODES);
  if (!isGrid && grid && !sights.symbols.length) sights.unread = [{ ...grid, isExact: true }];
  kept = { look, sights, end };
  return { ...sights, ...(sights.symbols.length ? {} : remarked(ecc200, look, sights)), view: look.view };
}
// What is said of a picture in which nothing is read.
/** @type {(ecc200: Ecc200, look: Look, sights: Sights) => Partial<Sights>} */
function remarked(ecc200, look, { unread: all, why }) {
  const { other, unread } = besideOther(ecc200, look, all), { contrast } = look;
  const shows = other ? ` It shows ${other}, which isn’t a Data Matrix symbol.` : "";
  const notes = contrast < LITTLE_CONTRAST ? ` Its contrast is low: its greys differ by ${contrast} of 255.` : "";
  return { notes, unread, why: why || `${NONE_FOUND}${shows}${notes}` };
}
const WARM = { side: 220, each: 6, turn: 0.4, times: 6 }; // pixels, of a module too; radians
// Looks at a symbol that is drawn here, turned and on uneven paper, so that what finds symbols is compiled as well as
// can be before the first picture comes.
/** @type {(ecc200: Ecc200) => void} */
export function warmUp({ library, sampler }) {
  const { side, each, turn, times } = WARM, how = { form: ASCII, shape: SQUARE, rows: 0, columns: 0 };
  const { modules, rows, columns } = /** @type {Grid} */ (library.write(contentOf([...Array(20).keys()]), how));
  const [cosine, sine] = [Math.cos(turn) / each, Math.sin(turn) / each];
  const grey = Uint8Array.from({ length: side * side }, (_, k) => {
    const x = (k % side) - side / 2, y = Math.floor(k / side) - side / 2;
    const c = Math.floor(x * cosine + y * sine + columns / 2), r = Math.floor(y * cosine - x * sine + rows / 2);
    const isDark = r >= 0 && r < rows && c >= 0 && c < columns && modules[r * columns + c];
    return (isDark ? 50 : 200) + ((7 * k + 13 * y) % 23);
  });
  for (let k = 0; k < times; k++) sampler.find(grey, side, side, { mostUnread: MOST_UNREAD, quality: true });
}
// All symbols in the picture that was looked at last, in what is left of its time, and which code of another kind it
// has; null if it is another one by now.
/** @type {(ecc200: Ecc200) => Sights | null} */
export function restOfPicture(ecc200) {
  if (!kept) return null;
  const { look, sights, end } = kept;
  kept = null;
  if (sights.isComplete) return sights;
  const rest = sampled(ecc200, look, MOST_SYMBOLS, end - TIME_OF_CODES);
  /** @type {(it: Sighted) => boolean} */
  const isThere = ({ corners }) => rest.symbols.some((other) => isNear(corners[0], other.corners[0]));
  return { ...rest, ...besideOther(ecc200, look, rest.unread),
    symbols: [...sights.symbols.filter((symbol) => !isThere(symbol)), ...rest.symbols] };
}
