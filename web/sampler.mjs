// The sampler, which finds symbols in pictures: sampler/*.c, compiled for WebAssembly. It has a memory of its own, in
// which its stack comes first, so that a stack that runs over traps; and it asks the proved library as natively.
import { LAYOUT, SAMPLER } from "./layouts.mjs";
import { headOf, contentOf } from "./contents.mjs";
import { qualityAt } from "./quality.mjs";

/** @typedef {import("./library.mjs").Library} Library */
/** @typedef {import("./library.mjs").Fault} Fault */
/** @typedef {import("./common.mjs").Grid} Grid */
/** @typedef {{ x: number, y: number }} Point in pixels from the left and from the top of the picture */
/** @typedef {Grid & import("./contents.mjs").Content & { doubtful: Uint8Array | null, corners: Point[],
    isInverted: boolean, isMirrored: boolean, limit: number, symbology: string, border: number, corrected: number[],
    erased: number[], left: number[], fault: Fault | null, hasMargin: boolean,
    quality?: import("./quality.mjs").Quality }} Found a symbol, upright: which of its
    modules are doubtful, if some are; its corners from the top left one to the right; whether it is light on dark, and
    shown in a mirror; how many wrong border modules it was read with, at most; what it says, with its symbology
    identifier; how many are wrong, and of each block what was corrected, is erased, and is left; or why it isn't read:
    by its fault, or since too few corrections are left unused; and how good its print is, if that was asked */
/** @typedef {{ symbols: Found[], unread: Found[], ended: number, hasNoMemory: boolean }} Finding why the search ended:
    a number of SAMPLER, WHOLE if nothing was left out */
/** @typedef {{ most?: number, mostUnread?: number, milliseconds?: number, effort?: number, leastSide?: number,
    margin?: number, quality?: boolean }} Search how many symbols to find at most, and to tell of that aren't read; how
    long to try by the clock, or if that isn't said, how much work to do, in percent of the usual; the fewest modules of
    a side; how many corrections each block must leave unused; and whether the print is measured */
const { sample: SAMPLE, sample_search: SEARCH, scan: SCAN, reading: READING, fault: FAULT, head: HEAD_AT, mark: MARK_AT,
  sample_quality: QUALITY, place_table: TABLE, place: PLACE, size_table: SIZES, sample_point: POINT } = LAYOUT;
const { READ, REFUSED, WHOLE } = SAMPLER;
const NANOSECONDS = 1e6; // of a millisecond
const MOST_BYTES = 2 ** 31; // of one piece of memory; more than that isn't there, and a length has 32 bits
export const ANY_TIME = 2 ** 32 - 1; // milliseconds: the search is limited by its work
/** @type {Finding} */
const NOTHING = { symbols: [], unread: [], ended: WHOLE, hasNoMemory: true };

export class Sampler {
  /** @type {(code: BufferSource | WebAssembly.Module, library: Library) => Promise<Sampler>} */
  static async load(code, library) {
    const sampler = new Sampler(library), imports = { env: sampler.calls(), wasi_snapshot_preview1: sampler.clock() };
    const module = code instanceof WebAssembly.Module ? code : await WebAssembly.compile(code);
    sampler.c = (await WebAssembly.instantiate(module, imports)).exports;
    if (sampler.c.ecc200_sample_abi() !== SAMPLER.ABI) throw new Error("the sampler has another interface than this");
    return sampler;
  }
  /** @param {Library} library */
  constructor(library) {
    this.library = library;
    /** @type {any} */
    this.c = null;
  }
  get buffer() { return this.c.memory.buffer; }
  get size() { return this.buffer.byteLength; }
  /** @type {(at: number, count: number) => Uint8Array} */
  bytes(at, count) { return new Uint8Array(this.buffer, at, count); }

  // ---- What the sampler asks for

  // The calls of ecc200.h, of which inputs and output are copied from one memory to the other.
  calls() {
    const { library } = this, { c } = library;
    /** @type {(at: number, from: number, count: number) => void} */
    const given = (at, from, count) => library.bytes(at, count).set(this.bytes(from, count));
    /** @type {(to: number, count: number) => void} */
    const taken = (to, count) => this.bytes(to, count).set(library.bytes(library.outAt, count));
    const itemsOf = () => library.numbers(library.outAt + READING.item_count, 1)[0];
    /** @type {Record<string, (...given: number[]) => any>} */
    const calls = {
      ecc200_read: (modules, count, doubtful, doubtfulCount, scan, out) => {
        given(library.modulesAt, modules, count);
        given(library.doubtfulAt, doubtful, doubtfulCount);
        given(library.scanAt, scan, SCAN.size);
        const code = c.ecc200_read(BigInt(library.modulesAt), BigInt(count), BigInt(library.doubtfulAt),
          BigInt(doubtfulCount), BigInt(library.scanAt), library.out);
        taken(out, code ? FAULT.size : READING.items + 2 * itemsOf());
        return code;
      },
      ecc200_usual_limit: c.ecc200_usual_limit,
      ecc200_sizes: (/** @type {number} */ out) => { c.ecc200_sizes(library.out); taken(out, SIZES.size); },
      ecc200_places: (rows, columns, out) => {
        const code = c.ecc200_places(rows, columns, library.out);
        taken(out, code ? FAULT.size : TABLE.places + PLACE.size * rows * columns);
        return code;
      },
    };
    return calls;
  }
  // The one call of WASI that its clock makes.
  clock() {
    return {
      clock_time_get: (/** @type {any} */ _, /** @type {any} */ __, /** @type {number} */ out) => {
        new DataView(this.buffer).setBigUint64(out, BigInt(Math.round(performance.now() * NANOSECONDS)), true);
        return 0;
      },
    };
  }

  // ---- A picture

  // The symbols of a picture, of its luminance row by row: 0 is black, 255 white.
  /** @type {(luminance: ArrayLike<number>, width: number, height: number, search?: Search) => Finding} */
  find(luminance, width, height, { most = 1, mostUnread = 0, milliseconds = ANY_TIME, effort = 0, leastSide = 0,
    margin = 0, quality = false } = {}) {
    const wanted = [luminance.length, SEARCH.size, most * SAMPLE.size, mostUnread * SAMPLE.size, QUALITY.size];
    if (wanted.some((size) => size > MOST_BYTES)) return NOTHING;
    const rooms = wanted.map((size) => this.c.malloc(Math.max(1, size)) >>> 0);
    const [picture, search, read, unread, measured] = rooms;
    try {
      if (rooms.includes(0)) return NOTHING;
      this.bytes(picture, luminance.length).set(luminance);
      const view = new DataView(this.buffer);
      /** @type {(at: number, value: number) => void} */
      const long = (at, value) => view.setUint32(search + at, value, true);
      /** @type {(at: number, value: number) => void} */
      const short = (at, value) => view.setUint16(search + at, value, true);
      long(SEARCH.milliseconds, milliseconds);
      short(SEARCH.least_side, leastSide);
      short(SEARCH.margin, margin);
      short(SEARCH.effort, effort);
      long(SEARCH.symbols, read);
      long(SEARCH.room, most);
      long(SEARCH.unread, unread);
      long(SEARCH.unread_room, mostUnread);
      const code = this.c.ecc200_sample_find(picture, width, height, width, search);
      const finding = this.findingAt(search, read, unread, code);
      if (!quality) return finding;
      const withQuality = (/** @type {number} */ from) => (/** @type {Found} */ symbol, /** @type {number} */ k) =>
        ({ ...symbol, ...this.measured(picture, width, height, from + k * SAMPLE.size, measured) });
      return { ...finding, symbols: finding.symbols.map(withQuality(read)),
        unread: finding.unread.map(withQuality(unread)) };
    } finally {
      for (const room of rooms) this.c.free(room);
    }
  }
  // The code of another kind that a picture shows clearly, as "a QR code", and its corners; null if there is none.
  /** @type {(luminance: ArrayLike<number>, width: number, height: number) =>
      { name: string, corners: Point[] } | null} */
  otherCode(luminance, width, height) {
    const rooms = [luminance.length, 4 * POINT.size].map((size) => this.c.malloc(size) >>> 0);
    const [picture, corners] = rooms;
    try {
      if (rooms.includes(0)) return null;
      this.bytes(picture, luminance.length).set(luminance);
      const name = this.c.ecc200_sample_other_code(picture, width, height, width, corners) >>> 0;
      if (name === 0) return null;
      const all = new Uint8Array(this.buffer), letters = all.subarray(name, all.indexOf(0, name));
      return { name: String.fromCharCode(...letters), corners: this.pointsAt(corners, 4) };
    } finally {
      for (const room of rooms) this.c.free(room);
    }
  }
  /** @type {(at: number, count: number) => Point[]} */
  pointsAt(at, count) {
    const view = new DataView(this.buffer);
    const coordinate = (/** @type {number} */ place) => view.getFloat64(at + place, true);
    return Array.from({ length: count }, (_, k) =>
      ({ x: coordinate(k * POINT.size + POINT.x), y: coordinate(k * POINT.size + POINT.y) }));
  }
  // How good the print of a symbol is; nothing, if there is no memory to measure it.
  /** @type {(picture: number, width: number, height: number, symbol: number, out: number) =>
      { quality?: import("./quality.mjs").Quality }} */
  measured(picture, width, height, symbol, out) {
    const code = this.c.ecc200_sample_measure(picture, width, height, width, symbol, out);
    return code ? {} : { quality: qualityAt(new DataView(this.buffer), out) };
  }
  /** @type {(search: number, read: number, unread: number, code: number) => Finding} */
  findingAt(search, read, unread, code) {
    const view = new DataView(this.buffer), count = (/** @type {number} */ at) => view.getUint32(search + at, true);
    /** @type {(at: number, many: number) => Found[]} */
    const all = (at, many) => Array.from({ length: many }, (_, k) => this.foundAt(at + k * SAMPLE.size));
    return { symbols: all(read, count(SEARCH.count)), unread: all(unread, count(SEARCH.unread_count)),
      ended: view.getUint16(search + SEARCH.ended, true), hasNoMemory: code === SAMPLER.NO_MEMORY };
  }
  /** @type {(at: number) => Found} */
  foundAt(at) {
    const view = new DataView(this.buffer), number = (/** @type {number} */ place) => view.getUint16(at + place, true);
    const rows = number(SAMPLE.rows), columns = number(SAMPLE.columns), why = number(SAMPLE.unread);
    const grid = (/** @type {number} */ place) => this.bytes(at + place, rows * columns).slice();
    const doubtful = grid(SAMPLE.doubtful);
    const isRefused = why === REFUSED;
    const ofReading = (/** @type {number} */ member) => (isRefused ? 0 : number(SAMPLE.reading + member));
    const of = (/** @type {number} */ member) => number(SAMPLE.reading + READING.fault + member);
    const blocks = ofReading(READING.block_count);
    const inBlocks = (/** @type {number} */ member) => [...this.bytes(at + SAMPLE.reading + member, blocks)];
    return {
      rows, columns, modules: grid(SAMPLE.modules), doubtful: doubtful.includes(1) ? doubtful : null,
      corners: this.pointsAt(at + SAMPLE.corners, 4),
      isInverted: view.getUint8(at + SAMPLE.inverted) === 1, isMirrored: view.getUint8(at + SAMPLE.mirrored) === 1,
      limit: number(SAMPLE.border_limit), hasMargin: why === READ || why === REFUSED,
      ...this.contentAt(view, at + SAMPLE.reading, isRefused),
      border: ofReading(READING.border_faults), corrected: inBlocks(READING.corrected),
      erased: inBlocks(READING.erased), left: inBlocks(READING.left),
      fault: isRefused ? { code: of(FAULT.code), value: of(FAULT.value), place: of(FAULT.place) } : null,
    };
  }
  // What a reading says, with its symbology identifier; nothing, where it is refused.
  /** @type {(view: DataView, at: number, isRefused: boolean) => import("./contents.mjs").Content &
      { symbology: string }} */
  contentAt(view, at, isRefused) {
    if (isRefused) return { ...contentOf([]), symbology: "" };
    const number = (/** @type {number} */ place) => view.getUint16(at + place, true);
    const long = (/** @type {number} */ place) => view.getUint32(at + place, true);
    /** @type {(place: number) => import("./contents.mjs").Mark} */
    const markAt = (place) => ({ place: long(place + MARK_AT.place), number: long(place + MARK_AT.number) });
    /** @type {(count: number, of: (k: number) => any) => any[]} */
    const list = (count, of) => Array.from({ length: number(count) }, (_, k) => of(k));
    const file = [0, 1].map((k) => view.getUint8(at + READING.head + HEAD_AT.file + k));
    const [kind, part, parts] = [HEAD_AT.kind, HEAD_AT.part, HEAD_AT.parts].map((at) => number(READING.head + at));
    return {
      items: list(READING.item_count, (k) => number(READING.items + 2 * k)),
      marks: list(READING.mark_count, (k) => markAt(READING.marks + k * MARK_AT.size)),
      head: headOf(kind, part, parts, file), symbology: `]d${number(READING.identifier)}`,
    };
  }
}
