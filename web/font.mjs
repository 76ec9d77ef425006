// The font of the texts below symbols, of which the page has the outlines: so they look alike on the screen, on paper
// and in files, whatever fonts there are. All its letters are equally wide. A letter is what stands by itself, from the
// left to the right: no mark on another, and none that is joined to the next.
import { codeOf, there } from "./common.mjs";

/** @typedef {{ word: string, at: number[] }} Step of an outline: M x y, L x y, Q x y x y, or Z; in heights of the font,
    upwards from the line on which letters stand */
/** @typedef {{ x: number, y: number, isOn: boolean }} Corner of an outline, or what a curve bends to */
export const WIDTH = 1233 / 2048; // of each letter, as a share of its height
const ON = 1, SHORT = [2, 4], AGAIN = 8, SAME = [16, 32]; // flags of corners, for x and y
const WORDS = 1, ARE_SHIFTS = 2, SCALED = 8, MORE = 32, SCALED_TWICE = 64, TURNED = 128; // flags of parts
const JOINED = /[\p{M}\p{C}\p{Z}\p{Script=Arabic}\p{Script=Hebrew}\p{Script=Lao}]/u;

class Font {
  /** @type {Map<string, number>} where each table begins */
  tables = new Map();
  /** @type {Map<number, number>} the outlines of characters, by their numbers */
  outlines = new Map();

  /** @param {Uint8Array} bytes */
  constructor(bytes) {
    const view = new DataView(bytes.buffer, bytes.byteOffset, bytes.length);
    this.view = view;
    for (let k = 0, at = 12; k < view.getUint16(4); k++, at += 16)
      this.tables.set(String.fromCharCode(...bytes.subarray(at, at + 4)), view.getUint32(at + 8));
    this.units = view.getUint16(this.table("head") + 18);
    this.readCharacters(this.table("cmap"));
  }
  /** @type {(name: string) => number} */
  table(name) { return there(this.tables.get(name)); }
  // Reads the groups of characters that follow one another, as their outlines do.
  /** @param {number} cmap */
  readCharacters(cmap) {
    const { view } = this, tables = Array.from({ length: view.getUint16(cmap + 2) }, (_, k) =>
      cmap + view.getUint32(cmap + 8 + 8 * k));
    const own = there(tables.find((at) => view.getUint16(at) === 12));
    for (let k = 0, at = own + 16; k < view.getUint32(own + 12); k++, at += 12) {
      const [first, last, outline] = [0, 4, 8].map((more) => view.getUint32(at + more));
      for (let code = first; code <= last; code++) this.outlines.set(code, outline + code - first);
    }
  }
  // The closed lines of an outline.
  /** @type {(outline: number) => Corner[][]} */
  linesOf(outline) {
    const { view } = this, [from, to] = [0, 4].map((more) =>
      view.getUint32(this.table("loca") + 4 * outline + more));
    if (from === to) return [];
    const at = this.table("glyf") + from, count = view.getInt16(at);
    return count < 0 ? this.partsOf(at + 10) : this.ownLines(at + 10, count);
  }
  // The lines of an outline that is made of others, each shifted and perhaps scaled.
  /** @type {(at: number) => Corner[][]} */
  partsOf(at) {
    const { view } = this, flags = view.getUint16(at), outline = view.getUint16(at + 2), areWords = flags & WORDS;
    const [dx, dy] = areWords ? [view.getInt16(at + 4), view.getInt16(at + 6)] : [view.getInt8(at + 4),
      view.getInt8(at + 5)];
    let next = at + (areWords ? 8 : 6);
    const scale = () => { next += 2; return view.getInt16(next - 2) / 16384; };
    let [xx, xy, yx, yy] = [1, 0, 0, 1];
    if (flags & SCALED) xx = yy = scale();
    else if (flags & SCALED_TWICE) [xx, yy] = [scale(), scale()];
    else if (flags & TURNED) [xx, xy, yx, yy] = [scale(), scale(), scale(), scale()];
    const [ox, oy] = flags & ARE_SHIFTS ? [dx, dy] : [0, 0];
    /** @type {(corner: Corner) => Corner} */
    const moved = ({ x, y, isOn }) => ({ x: x * xx + y * yx + ox, y: x * xy + y * yy + oy, isOn });
    const lines = this.linesOf(outline).map((line) => line.map(moved));
    return flags & MORE ? [...lines, ...this.partsOf(next)] : lines;
  }
  /** @type {(at: number, count: number) => Corner[][]} */
  ownLines(at, count) {
    const { view } = this, ends = Array.from({ length: count }, (_, k) => view.getUint16(at + 2 * k) + 1);
    /** @type {number[]} */
    const flags = [], all = ends[count - 1];
    let next = at + 2 * count + 2 + view.getUint16(at + 2 * count);
    while (flags.length < all) {
      const flag = view.getUint8(next++), more = flag & AGAIN ? view.getUint8(next++) : 0;
      for (let k = 0; k <= more; k++) flags.push(flag);
    }
    const [xs, ys] = [0, 1].map((axis) => {
      let place = 0;
      return flags.map((flag) => {
        if (flag & SHORT[axis]) place += view.getUint8(next++) * (flag & SAME[axis] ? 1 : -1);
        else if (!(flag & SAME[axis])) { place += view.getInt16(next); next += 2; }
        return place;
      });
    });
    const corners = flags.map((flag, k) => ({ x: xs[k], y: ys[k], isOn: Boolean(flag & ON) }));
    return ends.map((end, k) => corners.slice(k ? ends[k - 1] : 0, end));
  }
}
/** @type {Font} */
let font;
/** @type {Map<string, Step[]>} */
const known = new Map();
/** @type {(packed: Uint8Array) => Promise<void>} */
export async function readFont(packed) {
  const opened = new Blob([packed]).stream().pipeThrough(new DecompressionStream("deflate"));
  font = new Font(new Uint8Array(await new Response(opened).arrayBuffer()));
}
/** @type {(character: string) => boolean} */
export const hasLetter = (character) =>
  character === " " || (font.outlines.has(codeOf(character)) && !JOINED.test(character));

// Between two corners that a curve bends to, it touches the middle.
/** @type {(one: Corner, other: Corner) => Corner} */
const between = (one, other) => ({ x: (one.x + other.x) / 2, y: (one.y + other.y) / 2, isOn: true });
/** @type {(line: Corner[]) => Step[]} */
function stepsAlong(line) {
  const all = line.flatMap((corner, k) => {
    const next = line[(k + 1) % line.length];
    return corner.isOn || next.isOn ? [corner] : [corner, between(corner, next)];
  });
  const first = all.findIndex(({ isOn }) => isOn), corners = [...all.slice(first), ...all.slice(0, first), all[first]];
  /** @type {(corner: Corner) => number[]} */
  const at = ({ x, y }) => [x / font.units, y / font.units];
  const steps = [{ word: "M", at: at(corners[0]) }];
  for (let k = 1; k < corners.length; k++) {
    if (corners[k].isOn) steps.push({ word: "L", at: at(corners[k]) });
    else { steps.push({ word: "Q", at: [...at(corners[k]), ...at(corners[k + 1])] }); k++; }
  }
  return [...steps, { word: "Z", at: [] }];
}
// The outline of a letter that the font has.
/** @type {(character: string) => Step[]} */
export function outlineOf(character) {
  const steps = known.get(character) ?? font.linesOf(there(font.outlines.get(codeOf(character)))).flatMap(stepsAlong);
  known.set(character, steps);
  return steps;
}
