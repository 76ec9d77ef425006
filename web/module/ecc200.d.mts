// Types of ecc200.mjs: Data Matrix ECC 200 for programs in JavaScript. docs/JAVASCRIPT.md tells how it is used.

/** What is read or written: red, green, blue and opacity of each pixel, as an ImageData has them, or its luminance. */
export interface Picture { data: ArrayLike<number>; width: number; height: number }
/** The modules of a symbol row by row, without a quiet zone: 1 is dark. */
export interface Grid { rows: number; columns: number; modules: Uint8Array }
/** In pixels from the left and from the top edge of the picture. */
export interface Point { x: number; y: number }
/** An ECI assignment: its number, 0 to 999999 (26 is UTF-8), and how many items stand before it. */
export interface Mark { place: number; number: number }
/** One part of so many, 1 and 2 to 16, with two numbers that all of them have, 1 to 254: structured append. */
export interface Part { part: number; parts: number; file: number[] }
/** What a symbol says. */
export interface Content {
  /** 0 to 255, and 256 for FNC1. */
  items: number[];
  /** In order. */
  marks: Mark[];
  /** Whether it is a part, or programs the reader; null for neither. */
  head: "programming" | Part | null;
}
export interface Message extends Content {
  /** Whether FNC1 is the first item. */
  isGs1: boolean;
  /** The items without a first FNC1; others as 29, GS. */
  bytes: Uint8Array;
  /** The bytes as text, in the charsets of their marks; without a mark in UTF-8 where they are that, else in
   * ISO 8859-1; null where they are none. */
  text: string | null;
  /** The charset of the text: of several the names, with commas between; `binary` or `ECI n` for no charset. */
  charset: string;
  /** The identifiers of GS1 data with their values; null where it is none, as a part, or isn't by GS1's rules. */
  elements: Element[] | null;
}
/** An application identifier of GS1, as `01`, with its value. */
export interface Element { identifier: string; value: string }
export interface Reading {
  /** The symbology identifier of ISO/IEC 15424, `]d1` to `]d6`. */
  symbology: string;
  /** 1 where 144 x 144 is dealt by the other dealing, else 0. */
  dealing: number;
  /** How many border modules have the wrong colour. */
  border: number;
  /** For each block: codewords that were corrected, that were erased, and check codewords that neither has used. */
  corrected: number[];
  erased: number[];
  left: number[];
}
/** How many border modules may be wrong: so many; `auto`, any number if each block keeps a correction unused; or null
 * for as many as usual. */
export type Limit = number | "auto" | null;
export interface Fault { code: number; value: number; place: number }
/** A symbol in a picture, upright. */
export interface Found extends Grid, Content, Omit<Reading, "dealing"> {
  /** 1 for each module that was taken for lost; null if none was. */
  doubtful: Uint8Array | null;
  /** Top left, top right, bottom right and bottom left of the upright symbol, where they are in the picture. */
  corners: Point[];
  /** Whether it is light on dark. */
  isInverted: boolean;
  /** Whether the picture shows it as in a mirror. */
  isMirrored: boolean;
  /** With this border limit and `doubtful`, `readGrid` says the same again, and `normal` gives its normal symbol. */
  limit: number;
  /** Why it isn't read; null if it is. */
  fault: Fault | null;
  /** Whether each block leaves as many corrections unused as it should. */
  hasMargin: boolean;
  /** How good its print is, if that was asked. */
  quality?: Quality;
}
/** How good the print of a symbol is, as ISO/IEC 15415 counts it, but of this picture, uncalibrated: no verifier's
 * report. */
export interface Quality {
  /** The largest less the smallest reflectance, 0 to 1. */
  contrast: number;
  /** The least of all codewords. */
  modulation: number;
  /** Of each block, the share of its check codewords that isn't used. */
  unused: number[];
  /** Nonuniformity: how much the mean width and height of modules differ, as a share. */
  axial: number;
  /** Nonuniformity: how far the worst module lies beside an even grid, in modules. */
  grid: number;
  /** How much wider, and higher, dark modules are than they should be, in modules. */
  growth: number[];
  /** The damaged share of each side of the border, and of the quiet zone: at the top, on the right, below, on the
   * left. */
  border: number[];
  quiet: number[];
  /** How many codewords have a modulation of .5, .4, .3 and .2, or more. */
  readable: number[];
  /** The weakest place, in words. */
  weakest: string;
  grades: Record<"contrast" | "modulation" | "unused" | "axial" | "grid", "A" | "B" | "C" | "D" | "F">;
  /** Of each codeword, that of its weakest module. */
  modulations: number[];
}
export interface Search {
  /** How many symbols to find at most: 1 if it isn't given. */
  most?: number;
  /** How many to tell of that were found and not read: 0. */
  mostUnread?: number;
  /** How long to try by the clock; if it isn't given, the work is limited, the same on every machine. */
  milliseconds?: number;
  /** How much work to do then, in percent of the usual, or 65535 for any: 100. */
  effort?: number;
  /** Symbols with a side of fewer modules are passed over: 0. */
  leastSide?: number;
  /** How many corrections each block must leave unused: 0. */
  margin?: number;
  /** Whether the print of each symbol is measured. */
  quality?: boolean;
}
export interface Form {
  /** `smallest`, if it isn't given: the encodations that take the smallest size. `ascii`; or `shorter`, which writes
   * bytes as such where that takes fewer codewords. */
  form?: "smallest" | "ascii" | "shorter";
  /** The smallest of these is taken: `square` if it isn't given. */
  shape?: "square" | "rectangle" | "extended" | "any";
  /** Or this size. */
  rows?: number;
  columns?: number;
  /** Whether a text is an element string, with its identifiers in brackets: `(01)09521234543213(10)ABC`. */
  gs1?: boolean;
}
export interface SizeOfSymbol {
  rows: number; columns: number; regionRows: number; regionColumns: number; down: number; across: number;
  data: number; check: number; blocks: number; limit: number; isExtension: boolean;
}

/** What can't be read or written: the code of ecc200.h, with the value and the place that it tells. */
export class Refused extends Error { code: number; value: number; place: number }

/** The symbols in a picture. Throws a RangeError where there is no memory, or a side isn't 1 to 32767 pixels. */
export function read(picture: Picture, search?: Search):
  { symbols: (Found & Message)[]; unread: Found[]; isComplete: boolean };
/** What is written: text, which is ISO 8859-1, or else behind its mark the charset whose symbol is smallest; bytes or
 * items; or a content. */
export type Given = string | ArrayLike<number> | (Partial<Content> & Pick<Content, "items">);
/** The symbol of what is given. Throws Refused if no size holds it, and a RangeError for a wrong element string. */
export function write(given: Given, form?: Form): Grid;
/** What an upright grid says. Throws Refused. */
export function readGrid(grid: Grid, more?: { limit?: Limit; doubtful?: Uint8Array | null }): Message & Reading;
/** What readings say together that are the parts of one message, in any order. Throws a RangeError if one is missing,
 * or isn't one of them. */
export function joined(readings: Content[]): Message;
/** The normal symbol of what an upright grid says: symbols that say the same have the same one. Throws Refused. */
export function normal(grid: Grid,
  more?: { limit?: Limit; doubtful?: Uint8Array | null; form?: "ascii" | "shorter" }): Grid;
/** The 48 sizes of symbols. */
export function sizes(): SizeOfSymbol[];
/** The luminance of each pixel, as `read` takes it. */
export function luminanceOf(picture: Picture): Uint8Array;
/** The item that stands for FNC1. */
export const FNC1: 256;
