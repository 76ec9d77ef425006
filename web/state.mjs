// What the page has at hand: the task that is open, and for messages and for what is read a symbol each, with its
// damage and what is read of it.
import { BIT, isSame, isSameShape, shapeName, there } from "./common.mjs";

/** @typedef {import("./common.mjs").Shape} Shape */
/** @typedef {import("./common.mjs").Grid} Grid */
/** @typedef {{ modules: Uint8Array, doubtful: Uint8Array | null }} Step what acts change */

// Only a valid mark has a verdict, and is saved, copied or damaged. EMPTY: nothing was entered; WORKING: the worker is
// asked; BAD: what is entered makes no symbol, or the worker was stopped or broke off.
export const EMPTY = "empty", WORKING = "working", VALID = "valid", BAD = "bad";

export class Mark {
  stage = EMPTY;
  why = ""; // why there is no verdict, in a bad mark
  isEntering = false; // whether there is no answer yet about what is entered, and the verdict is about what was before
  entered = 0; // the stamp of what was entered last
  changed = 0; // the stamp of the last change, so that an answer about an older state is known as such
  /** @type {Promise<any>} ends when what was entered, and what has been done to it, has its effect */
  turn = Promise.resolve();
  /** @type {Promise<any>} ends when the modules, as they were last, are looked at */
  looking = Promise.resolve();
  rows = 0;
  columns = 0;
  /** @type {Uint8Array | null} as they are now */
  modules = null;
  /** @type {Uint8Array | null} as they were written or opened */
  original = null;
  /** @type {Uint8Array | null} which modules the reader is told to be doubtful, if some are */
  doubtful = null;
  /** @type {Uint8Array | null} which modules were doubtful as it was opened, if some were */
  doubted = null;
  /** @type {import("./contents.mjs").Content | null} what was written, if something was */
  content = null;
  /** @type {import("./common.mjs").Limit} how many border modules may be wrong */
  limit = null;
  /** @type {import("./quality.mjs").Quality | null} how good the print was, where it was found in a picture */
  quality = null;
  limitWhy = ""; // why another limit, which was entered or linked, isn't taken
  /** @type {Step[]} what was before each act, to be undone */
  past = [];
  /** @type {Step[]} what was after each act that was undone */
  future = [];
  /** @type {import("./examine.mjs").Seen | null} what the library says of modules: with them it is drawn */
  seen = null;
  cursor = 0; // the module that the keys act on
  byKeys = false;
  /** @type {number | null} pointed at */
  module = null;
  /** @type {number | null} pointed at */
  word = null;

  /** @param {"write" | "read"} name */
  constructor(name) { this.name = name; }
  // The symbol goes, with all that was done to it.
  empty() {
    [this.modules, this.original, this.doubtful, this.doubted, this.content, this.seen] = Array(6).fill(null);
    this.quality = null;
    [this.rows, this.columns] = [0, 0];
    [this.limit, this.limitWhy, this.past, this.future] = [null, "", [], []];
    [this.cursor, this.byKeys, this.module, this.word] = [0, false, null, null];
    [this.stage, this.why] = [EMPTY, ""];
  }
  // Another symbol takes its place.
  /** @type {(grid: Grid, content: import("./contents.mjs").Content | null, doubtful: Uint8Array | null,
      quality?: import("./quality.mjs").Quality | null) => void} */
  hold({ modules, rows, columns }, content, doubtful, quality = null) {
    this.quality = quality;
    if (!isSameShape(this, { rows, columns })) [this.limit, this.limitWhy, this.cursor] = [null, "", 0];
    [this.rows, this.columns, this.modules, this.original] = [rows, columns, modules.slice(), modules.slice()];
    [this.content, this.doubtful, this.doubted] = [content, doubtful, doubtful];
    [this.past, this.future, this.module, this.word] = [[], [], null, null];
  }
  // What an act changes, as it is now, and as it was.
  /** @type {() => Step} */
  step() { return { modules: there(this.modules), doubtful: this.doubtful }; }
  /** @type {(step: Step) => void} */
  goTo({ modules, doubtful }) { [this.modules, this.doubtful] = [modules, doubtful]; }
  // The symbol as it was written or opened.
  /** @type {() => Grid} */
  undamaged() { return { modules: there(this.original), rows: this.rows, columns: this.columns }; }
}

// The three tasks. What is read and what is made have a symbol each, and what is learnt is about one of these.
export const TASKS = ["read", "make", "learn"];
/** @type {Record<string, "write" | "read">} */
export const PANE_OF = { read: "read", make: "write" };
/** @type {{ version: number, task: string, pane: "write" | "read", panes: Record<string, Mark> }} */
export const store = {
  version: 0, task: "make", pane: "write", panes: { write: new Mark("write"), read: new Mark("read") },
};
export const { panes } = store;
// A number larger than all before it: whatever is entered, changed or asked has one of its own.
export const stamp = () => ++store.version;
export const mark = () => panes[store.pane];

// What each module of a symbol is, for each shape that was met; with the modules of each codeword, by their bits.
/** @type {Map<string, import("./library.mjs").Places>} */
const maps = new Map();
/** @type {(shape: Shape, map: { kind: Uint8Array, word: Uint16Array, bit: Uint8Array }) => void} */
export function keepMap(shape, { kind, word, bit }) {
  const name = shapeName(shape);
  if (maps.has(name)) return;
  /** @type {number[][]} */
  const modules = [];
  for (let k = 0; k < kind.length; k++) if (kind[k] === BIT) (modules[word[k]] ??= Array(8))[bit[k] - 1] = k;
  maps.set(name, { kind, word, bit, modules });
}
/** @type {(shape: Shape) => import("./library.mjs").Places} */
export const mapOf = (shape) => there(maps.get(shapeName(shape)));

/** @type {(it: { modules: Uint8Array | null, original: Uint8Array | null }) => boolean} */
export const isDamaged = ({ modules, original }) =>
  modules !== null && original !== null && !isSame(modules, original);
// Whether there is something to be undone: damage, or doubtful modules.
/** @type {(it: Mark) => boolean} */
export const isChanged = (it) => isDamaged(it) || !isSame(it.doubtful ?? NO_DOUBT, it.doubted ?? NO_DOUBT);
const NO_DOUBT = new Uint8Array(0);
/** @type {(it: Mark) => number[]} */
export const doubtsOf = ({ doubtful }) => (doubtful ? [...doubtful.keys()].filter((k) => doubtful[k]) : []);
/** @type {(it: { modules: Uint8Array | null, original: Uint8Array | null }) => number[]} */
export const damageOf = ({ modules, original }) =>
  (modules && original ? [...modules.keys()].filter((k) => modules[k] !== original[k]) : []);
