// The proved library, lowered from 64-bit memory to 32 bits, whose interface is that of library/ecc200.h. Addresses and
// lengths stay 64 bits wide, so they are BigInts; pages of its memory are counted in ordinary numbers. For everything
// about Data Matrix symbols (sizes, places, codewords, correction, messages, borders, normal forms) the page asks it.
import {
  ABI, AUTO, BIT, BORDER_FAULT, GIVEN_LIMIT, MOST_COLUMNS, MOST_ITEMS, MOST_MARKS, MOST_ROWS, SIZE_COUNT, WIDE, there,
} from "./common.mjs";
import { LAYOUT } from "./layouts.mjs";
import { headOf, kindOfHead, partOf } from "./contents.mjs";

/** @typedef {import("./common.mjs").Shape} Shape */
/** @typedef {import("./common.mjs").Grid} Grid */
/** @typedef {import("./common.mjs").Limit} Limit */
/** @typedef {import("./contents.mjs").Content} Content */
/** @typedef {import("./contents.mjs").Head} Head */
/** @typedef {import("./contents.mjs").Mark} Mark */
/** @typedef {{ code: number, value: number, place: number }} Fault */
/** @typedef {Shape & { regionRows: number, regionColumns: number, down: number, across: number, data: number,
    check: number, blocks: number, limit: number, isExtension: boolean }} Size */
/** @typedef {{ form: number, shape: number } & Shape} How a message is written: its form, and the sizes that may be
    taken; rows and columns are those of one size */
/** @typedef {{ fault?: Fault, border?: number, corrected?: number[], erased?: number[], left?: number[],
    symbology?: string, dealing?: number } & Partial<Content>} Answer to a symbol: of each block how many codewords were
    corrected, how many are erased, and how many of its check codewords neither have used; what it says, with its
    symbology identifier; and 1 where 144 x 144 is dealt by the other dealing, else 0 */
/** @typedef {{ border: number, dealing: number, corrected: number[], erased: number[], left: number[],
    held: Uint8Array, mended: Uint8Array }} Inspection */
/** @typedef {{ kind: Uint8Array, word: Uint16Array, bit: Uint8Array, modules: number[][] }} Places */

// In the memory that the caller adds: after the modules of a symbol come its doubtful ones, how something is written,
// how a symbol is read, marks and items, one more of each than a symbol has, and then what a call writes, of which a
// table of places is the largest.
const MOST_MODULES = MOST_ROWS * MOST_COLUMNS, DOUBTFUL = MOST_MODULES, HOW = 2 * MOST_MODULES, WORD = 4, PAGE = 65536;
/** @type {(at: number) => number} */
const aligned = (at) => Math.ceil(at / WORD) * WORD;
const SCAN = HOW + LAYOUT.how.size, MARKS = aligned(SCAN + LAYOUT.scan.size);
const ITEMS = MARKS + LAYOUT.mark.size * (MOST_MARKS + 1);
const OUT = aligned(ITEMS + 2 * (MOST_ITEMS + 1)), PAGES = Math.ceil((OUT + LAYOUT.place_table.size) / PAGE);
const CHECKS_OF_A_CORRECTION = 2; // codewords
const NO_PART = { part: 0, parts: 0, file: [0, 0] };

const BYTES = 0xff, SHORTS = 0xffff, LONGS = 0xffffffff; // the largest numbers of 8, 16 and 32 bits
// A number that has so many bits, or else one that the library refuses.
/** @type {(number: number, most: number, refused: number) => number} */
const within = (number, most, refused) =>
  (Number.isInteger(number) && number >= 0 && number <= most ? number : refused);

/** @type {(shape: Shape) => string} */
const keyOf = ({ rows, columns }) => `${rows} ${columns}`;

export class Library {
  /** @type {Map<string, Places>} */
  maps = new Map();
  /** @type {(code: BufferSource | WebAssembly.Module) => Promise<Library>} */
  static async load(code) {
    const module = code instanceof WebAssembly.Module ? code : await WebAssembly.compile(code);
    return new Library((await WebAssembly.instantiate(module, {})).exports);
  }
  /** @param {any} exports */
  constructor(exports) {
    this.c = exports;
    if (exports.ecc200_abi() !== ABI) throw new Error("the library has another interface than this page");
    const start = exports.memory.grow(PAGES) * PAGE;
    this.modulesAt = start;
    this.doubtfulAt = start + DOUBTFUL;
    this.howAt = start + HOW;
    this.scanAt = start + SCAN;
    this.marksAt = start + MARKS;
    this.itemsAt = start + ITEMS;
    this.outAt = start + OUT;
    /** @type {Map<string, Size>} */
    this.sizes = new Map(this.sizeTable().map((size) => [keyOf(size), size]));
  }
  /** @type {(at: number, count: number) => Uint8Array} */
  bytes(at, count) { return new Uint8Array(this.c.memory.buffer, at, count); }
  /** @type {(at: number, count: number) => Uint16Array} */
  numbers(at, count) { return new Uint16Array(this.c.memory.buffer, at, count); }
  /** @type {(at: number, count: number) => Uint32Array} */
  longs(at, count) { return new Uint32Array(this.c.memory.buffer, at, count); }
  get out() { return BigInt(this.outAt); }
  fault() { const [code, value, place] = this.numbers(this.outAt, 3); return { fault: { code, value, place } }; }
  // The arguments that give a symbol, and which of its modules are doubtful.
  /** @type {(grid: Grid, doubtful: Uint8Array | null) => [bigint, bigint, bigint, bigint, number, number]} */
  given({ modules, rows, columns }, doubtful) {
    this.bytes(this.modulesAt, modules.length).set(modules);
    if (doubtful) this.bytes(this.doubtfulAt, doubtful.length).set(doubtful);
    return [BigInt(this.modulesAt), BigInt(modules.length), BigInt(this.doubtfulAt), BigInt(doubtful?.length ?? 0),
      rows, columns];
  }
  // The arguments of a call that reads a symbol, at most so many of whose border modules have the wrong colour.
  /** @type {(grid: Grid, limit: number, doubtful: Uint8Array | null) => bigint[]} */
  scanned({ modules, rows, columns }, limit, doubtful) {
    const [at, count, doubtfulAt, doubtfulCount] = this.given({ modules, rows, columns }, doubtful);
    this.numbers(this.scanAt, 5).set([rows, columns, GIVEN_LIMIT, limit, WIDE]);
    return [at, count, doubtfulAt, doubtfulCount, BigInt(this.scanAt)];
  }
  /** @type {() => Grid} */
  symbol() {
    const [rows, columns] = this.numbers(this.outAt + LAYOUT.symbol.rows, 2);
    return { rows, columns, modules: this.bytes(this.outAt + LAYOUT.symbol.modules, rows * columns).slice() };
  }
  // Of each block what was corrected, what is erased, and what is left, of a reading or an inspection.
  /** @type {(places: { corrected: number, erased: number, left: number }, blocks: number) =>
      { corrected: number[], erased: number[], left: number[] }} */
  blockCounts({ corrected, erased, left }, blocks) {
    const [a, b, c] = [corrected, erased, left].map((at) => Array.from(this.bytes(this.outAt + at, blocks)));
    return { corrected: a, erased: b, left: c };
  }
  /** @type {() => Size[]} */
  sizeTable() {
    this.c.ecc200_sizes(this.out);
    return Array.from({ length: SIZE_COUNT }, (_, k) => {
      const [rows, columns, regionRows, regionColumns, down, across, , , data, check, blocks, limit, extension] =
        this.numbers(this.outAt + LAYOUT.size.size * k, LAYOUT.size.size / 2);
      return { rows, columns, regionRows, regionColumns, down, across, data, check, blocks, limit,
        isExtension: extension === 1 };
    });
  }
  /** @type {(shape: Shape) => Size | undefined} */
  sizeOf(shape) { return this.sizes.get(keyOf(shape)); }
  /** @type {(shape: Shape) => number} */
  usualLimit({ rows, columns }) { return this.c.ecc200_usual_limit(rows, columns); }
  // The border limit by which any border is taken, if each block then keeps a correction unused: the usual one, or as
  // many modules as are wrong.
  /** @type {(grid: Grid, doubtful?: Uint8Array | null) => number} */
  autoLimit(grid, doubtful = null) {
    const usual = this.usualLimit(grid), { fault } = this.read(grid, usual, doubtful);
    if (fault?.code !== BORDER_FAULT) return usual;
    const { left = [] } = this.read(grid, fault.value, doubtful);
    return left.length && left.every((count) => count >= CHECKS_OF_A_CORRECTION) ? fault.value : usual;
  }
  // The limit that is meant: a number, AUTO, or null for the usual one.
  /** @type {(grid: Grid, limit: Limit, doubtful?: Uint8Array | null) => number} */
  limitOf(grid, limit, doubtful = null) {
    return limit === AUTO ? this.autoLimit(grid, doubtful) : limit ?? this.usualLimit(grid);
  }
  /** @type {(grid: Grid, limit: number, doubtful?: Uint8Array | null) => Answer} */
  read(grid, limit, doubtful = null) {
    if (this.c.ecc200_read(...this.scanned(grid, limit, doubtful), this.out)) return this.fault();
    const { reading } = LAYOUT, at = this.outAt;
    const [border, blocks, count, marks, identifier, dealing] = this.numbers(at + reading.border_faults, 6);
    const items = Array.from(this.numbers(at + reading.items, count));
    return { border, items, marks: this.marksOf(at + reading.marks, marks), head: this.headOf(at + reading.head),
      symbology: `]d${identifier}`, dealing, ...this.blockCounts(reading, blocks) };
  }
  /** @type {(at: number, count: number) => Mark[]} */
  marksOf(at, count) {
    return Array.from({ length: count }, (_, k) => {
      const [number, place] = this.longs(at + LAYOUT.mark.size * k, 2);
      return { place, number };
    });
  }
  /** @type {(at: number) => Head | null} */
  headOf(at) {
    const [kind, part, parts] = this.numbers(at, 3), [a, b] = this.bytes(at + LAYOUT.head.file, 2);
    return headOf(kind, part, parts, [a, b]);
  }
  /** @type {(content: Content, how: How) => Partial<Grid> & { fault?: Fault }} */
  write({ items, marks, head }, { form, shape, rows, columns }) {
    // (one too many has the same effect as all of them)
    const some = items.slice(0, MOST_ITEMS + 1), few = marks.slice(0, MOST_MARKS + 1);
    this.numbers(this.itemsAt, some.length).set(some.map((item) => within(item, SHORTS, SHORTS)));
    const placed = (/** @type {number} */ place) => (place <= items.length ? Math.min(place, some.length) : place);
    const flat = few.flatMap(({ place, number }) => [number, placed(place)]);
    this.longs(this.marksAt, flat.length).set(flat.map((number) => within(number, LONGS, LONGS)));
    this.numbers(this.howAt, 5).set([form, shape, rows, columns, WIDE].map((number) => within(number, SHORTS, SHORTS)));
    this.setHead(this.howAt + LAYOUT.how.head, head);
    const given = [this.itemsAt, some.length, this.marksAt, few.length, this.howAt, this.outAt].map(BigInt);
    return this.c.ecc200_write(...given) ? this.fault() : this.symbol();
  }
  // Writes contents in each of several ways to say the same, and takes the one whose symbols have the fewest modules,
  // of equals the first; where none is written, the one of the fewest items.
  /** @type {(ways: Content[][], how: How) => { way: number, symbols: (Partial<Grid> & { fault?: Fault })[] }} */
  writeSmallest(ways, how) {
    const written = ways.map((contents, way) => {
      const symbols = contents.map((content) => this.write(content, how));
      const sum = (/** @type {number} */ one, /** @type {number} */ other) => one + other;
      const area = symbols.map(({ rows = Infinity, columns = 1 }) => rows * columns).reduce(sum);
      return { way, symbols, area, length: contents.map(({ items }) => items.length).reduce(sum) };
    });
    /** @type {(one: { area: number, length: number }, other: { area: number, length: number }) => boolean} */
    const isLess = (one, other) => (one.area === Infinity && other.area === Infinity
      ? one.length < other.length : one.area < other.area);
    const { way, symbols } = written.reduce((best, other) => (isLess(other, best) ? other : best));
    return { way, symbols };
  }
  /** @type {(at: number, head: Head | null) => void} */
  setHead(at, head) {
    const { part, parts, file } = partOf({ head }) ?? NO_PART;
    this.numbers(at, 3).set([kindOfHead(head), within(part, SHORTS, 0), within(parts, SHORTS, 0)]);
    this.bytes(at + LAYOUT.head.file, 2).set([0, 1].map((k) => within(file[k], BYTES, 0)));
  }
  /** @type {(grid: Grid, limit: number, profile: number, doubtful?: Uint8Array | null) =>
      Partial<Grid> & { fault?: Fault }} */
  normal(grid, limit, profile, doubtful = null) {
    const scanned = this.scanned(grid, limit, doubtful), form = within(profile, SHORTS, SHORTS);
    return this.c.ecc200_normal(...scanned, form, this.out) ? this.fault() : this.symbol();
  }
  // The grid has a size that there is, so that there is no fault.
  /** @type {(grid: Grid, doubtful?: Uint8Array | null) => Inspection} */
  inspect(grid, doubtful = null) {
    if (this.c.ecc200_inspect(...this.given(grid, doubtful), this.out)) throw new Error("no size has this shape");
    const { inspection } = LAYOUT;
    const [border, blocks, count, dealing] = this.numbers(this.outAt + inspection.border_faults, 4);
    const list = (/** @type {number} */ at) => this.bytes(this.outAt + at, count).slice();
    return { border, dealing, ...this.blockCounts(inspection, blocks), held: list(inspection.held),
      mended: list(inspection.mended) };
  }
  // What each module of a symbol of this shape is: its kind and, for a bit, its codeword and number; and the modules
  // of each codeword.
  /** @type {(shape: Shape) => Places} */
  map(shape) {
    const key = keyOf(shape), known = this.maps.get(key);
    if (known) return known;
    const { rows, columns, data, check } = there(this.sizes.get(key)), all = rows * columns;
    this.c.ecc200_places(rows, columns, this.out);
    const kind = new Uint8Array(all), word = new Uint16Array(all), bit = new Uint8Array(all);
    /** @type {number[][]} */
    const modules = Array.from({ length: data + check }, () => []);
    for (let k = 0; k < all; k++) {
      const { place, place_table: table } = LAYOUT, at = this.outAt + table.places + place.size * k;
      [word[k]] = this.numbers(at + place.codeword, 1);
      [bit[k], kind[k]] = this.bytes(at + place.bit, 2);
      if (kind[k] === BIT) modules[word[k]].push(k);
    }
    this.maps.set(key, { kind, word, bit, modules });
    return { kind, word, bit, modules };
  }
}
