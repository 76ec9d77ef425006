// Uses the module for other programs as such would: node uses.mjs MODULE.mjs BYTES TEXTS CONTENTS prints a line of JSON
// for each thing that it does: its name, and what came of it, or what was thrown. BYTES is a list of numbers of ECIs,
// each with the bytes behind it, TEXTS a list of texts, CONTENTS one of contents.
import { marksOf, texts } from "../corpus/corpus.mjs";

const module = await import(process.argv[2]);
const { FNC1, Refused, joined, luminanceOf, normal, read, readGrid, sizes, write } = module;
const SCALE = 5, QUIET = 2;

// A picture of symbols side by side, as an ImageData has it: dark and light are red, green, blue and opacity.
function pictureOf(grids, dark = [20, 30, 40, 255], light = [250, 240, 230, 255]) {
  const across = grids.reduce((sum, { columns }) => sum + columns + 2 * QUIET, 0);
  const down = Math.max(...grids.map(({ rows }) => rows)) + 2 * QUIET, [width, height] = [across * SCALE, down * SCALE];
  const data = new Uint8ClampedArray(4 * width * height);
  for (let k = 0; k < width * height; k++) data.set(light, 4 * k);
  let left = QUIET;
  for (const { rows, columns, modules } of grids) {
    for (let y = 0; y < rows * SCALE; y++)
      for (let x = 0; x < columns * SCALE; x++)
        if (modules[Math.floor(y / SCALE) * columns + Math.floor(x / SCALE)])
          data.set(dark, 4 * ((y + QUIET * SCALE) * width + x + left * SCALE));
    left += columns + 2 * QUIET;
  }
  return { data, width, height };
}
const plain = (grid) => ({ rows: grid.rows, columns: grid.columns, modules: grid.modules.join("") });
const said = ({ text, items, isGs1, bytes, corrected }) => ({ text, items, isGs1, bytes: [...bytes], corrected });
const content = ({ text, charset, items, marks, head, symbology }) =>
  ({ text, charset, items, marks, head, symbology });
const others = () => marksOf("contents").map((mark) => readGrid(mark));
const ASCII = { form: "ascii" };
const spoilt = (grid, count) => {
  const modules = grid.modules.slice();
  for (let k = 0; k < count; k++) modules[(k + 2) * grid.columns + 3] ^= 1;
  return { ...grid, modules };
};
// A symbol with a blot on it, and which modules that covers.
function blotted(grid) {
  const isCovered = (k) => k % grid.columns > 1 && k % grid.columns < 8 && k > 2 * grid.columns && k < 8 * grid.columns;
  const doubtful = grid.modules.map((_, k) => (isCovered(k) ? 1 : 0));
  return { grid: { ...grid, modules: grid.modules.map((module, k) => (doubtful[k] ? 1 : module)) }, doubtful };
}
const PARTS = ["one ", "two ", "three"].map((text, k) => ({ items: [...Buffer.from(text)],
  marks: k ? [] : [{ place: 0, number: 26 }], head: { part: k + 1, parts: 3, file: [9, 254] } }));
const MARKED = { items: [0xbf, 0xe0, 65], marks: [{ place: 0, number: 7 }, { place: 2, number: 999999 }] };
// A symbol whose left side is light to its eighth row.
const torn = (grid) => ({ ...grid,
  modules: grid.modules.map((it, k) => (k % grid.columns || k > grid.columns * 8 ? it : 0)) });
const two = () => [write("one"), write("two", { shape: "rectangle" })];
const TASKS = {
  exports: () => Object.keys(module).sort(),
  text: () => plain(write("Größe", ASCII)),
  bytes: () => plain(write(Uint8Array.of(71, 114, 195, 182, 195, 159, 101), ASCII)),
  smallest: () => plain(write("HELLO WORLD AND ALL THAT IS THERE")),
  "text of another script": () => content(readGrid(write("Größe 日本"))),
  "Latin-1 that may be UTF-8": () => content(readGrid(write("Ã©"))),
  marks: () => content(readGrid(write(MARKED))),
  programming: () => content(readGrid(write({ items: [65], head: "programming" }))),
  part: () => content(readGrid(write(PARTS[1]))),
  joined: () => content(joined([PARTS[2], PARTS[0], PARTS[1], PARTS[0]].map((it) => readGrid(write(it))))),
  "joined but one": () => joined([PARTS[2], PARTS[0]]),
  "joined with another": () => joined([...PARTS, { ...PARTS[0], items: [70] }]),
  "joined with a message": () => joined([...PARTS, { items: [70], marks: [], head: null }]),
  "joined of none": () => joined([]),
  "a wrong mark": () => write({ items: [65], marks: [{ place: 2, number: 26 }] }),
  "a wrong head": () => write({ items: [65], head: { part: 65537, parts: 3, file: [1, 1] } }),
  "a wrong item": () => write([65536 + 65]),
  "a torn border": () => {
    const grid = write("torn at its left side", ASCII), { text, border } = readGrid(torn(grid), { limit: "auto" });
    return [text, border, plain(normal(torn(grid), { limit: "auto" })).modules === plain(grid).modules];
  },
  "a torn border as usual": () => readGrid(torn(write("torn at its left side", ASCII))),
  "every size": () => marksOf("sizes").map((mark) => {
    const { items, marks, head } = readGrid(mark);
    return [mark.name, { items, marks, head }];
  }),
  damaged: () => marksOf("damaged").map((mark) => {
    try {
      const { items, border, corrected, erased } = readGrid(mark, { doubtful: mark.doubtful });
      return [items, border, corrected, erased];
    } catch (why) { return [why.code, why.value, why.place]; }
  }),
  texts: () => texts().map((text) => [text, readGrid(write(text)).text]),
  "contents of texts": () => JSON.parse(process.argv[4]).map((text) => readGrid(write(text)))
    .map(({ items, marks, head }) => ({ items, marks, head })),
  "charsets of contents": () => JSON.parse(process.argv[5]).map((it) => readGrid(write(it)))
    .map(({ text, charset }) => [text, charset]),
  "contents of others": () => others().map(content),
  "written anew": () => others().map((reading) => [content(reading), content(readGrid(write(reading)))]),
  "joined in one charset": () => {
    const parts = others().filter(({ head }) => head?.file?.join() === "254,1");
    return [parts.length, joined(parts).text];
  },
  "content in a picture": () => read(pictureOf([write("日本", { shape: "rectangle" }), write(PARTS[1])]), { most: 2 })
    .symbols.map(content).sort(({ text: one }, { text: other }) => (one < other ? -1 : 1)),
  "bytes in charsets": () => JSON.parse(process.argv[3]).map(([number, items]) =>
    [number, items, readGrid(write({ items, marks: [{ place: 0, number }] })).text]),
  gs1: () => said(readGrid(write([FNC1, ...Buffer.from("10AB"), FNC1, ...Buffer.from("21C")]))),
  elements: () => ["(01)09521234543213(17)251231(10)ABC123", "[10]A(B)[21]C", "(10)A\\(01)B"]
    .map((text) => readGrid(write(text, { gs1: true })).elements),
  "no elements": () => [write("10AB"), write([FNC1, ...Buffer.from("0109521234543214")]), write([FNC1]),
    write({ items: [FNC1, ...Buffer.from("10AB")], head: PARTS[1].head })].map((grid) => readGrid(grid).elements),
  "elements in a picture": () => read(pictureOf([write("(10)AB", { gs1: true })])).symbols.map((it) => it.elements),
  "elements of parts": () => joined([[FNC1, 49, 48, 65], [66]].map((items, k) => readGrid(write({ items,
    head: { part: k + 1, parts: 2, file: [9, 9] } })))).elements,
  "faulty elements": () => ["(01)09521234543214", "(01)0952", "(05)1", "10AB", "(17)250231", ""].map((text) => {
    try { return write(text, { gs1: true }) && "done"; } catch (why) { return [why.name, why.message]; }
  }),
  "elements that are no text": () => write([49, 48, 65], { gs1: true }),
  "not UTF-8": () => said(readGrid(write([255, 65]))),
  rectangle: () => plain(write("Hello", { shape: "rectangle" })),
  "a size": () => plain(write("Hello", { rows: 16, columns: 48 })),
  shorter: () => plain(write(new Uint8Array(20).fill(233), { form: "shorter" })),
  corrected: () => said(readGrid(spoilt(write("corrected"), 1))),
  doubtful: () => {
    const grid = write("doubtful"), doubtful = grid.modules.map((_, k) => (k === 3 * grid.columns + 3 ? 1 : 0));
    return readGrid(grid, { doubtful }).erased;
  },
  normal: () => plain(normal(write("normal", { rows: 32, columns: 32 }))),
  "normal of a blot": () => {
    const { grid, doubtful } = blotted(write("a blot on it"));
    return plain(normal(grid, { doubtful }));
  },
  "normal of a blot that isn't told": () => normal(blotted(write("a blot on it")).grid),
  "too long": () => write("7".repeat(4000)),
  "too small a size": () => write("Hello, world, once more", { rows: 10, columns: 10 }),
  "no such form": () => write("A", { form: "binary" }),
  "no such form of a normal symbol": () => normal(write("A"), { form: "binary" }),
  "options that there aren't": () => [() => write("A", { gs: true }), () => write("A", { shap: "any" }),
    () => readGrid(write("A"), { limits: 1 }), () => normal(write("A"), { doubtfull: null }),
    () => read(pictureOf(two()), { margins: 1 })].map((act) => {
    try { return act() && "done"; } catch (why) { return [why.name, why.message]; }
  }),
  "no such shape": () => write("A", { shape: "round" }),
  "rows that no size has": () => write("A", { rows: 65546, columns: 10 }),
  "no size": () => readGrid({ rows: 11, columns: 11, modules: new Uint8Array(121) }),
  sizes: () => [sizes().length, sizes()[0]],
  picture: () => read(pictureOf(two()), { most: 8 }).symbols.map(({ text, corners }) => [text, corners[0]])
    .sort(([one], [other]) => (one < other ? -1 : 1)),
  "one of two": () => { const { symbols, isComplete } = read(pictureOf(two())); return [symbols.length, isComplete]; },
  inverted: () => read(pictureOf([write("dark")], [255, 255, 255, 255], [9, 9, 9, 255])).symbols
    .map(({ text, isInverted }) => [text, isInverted]),
  transparent: () => read(pictureOf([write("on white")], [0, 0, 0, 255], [0, 0, 0, 0])).symbols.map(({ text }) => text),
  luminance: () => { const { data, ...size } = pictureOf([write("grey")]);
    return read({ data: luminanceOf({ data, ...size }), ...size }).symbols.map(({ text }) => text); },
  unread: () => {
    const grid = write("damaged beyond what can be corrected"), half = grid.modules.length >> 1;
    const isInside = (k) => k > grid.columns && k % grid.columns > 0 && (k + 1) % grid.columns > 0 && k < half;
    const { symbols, unread } = read(pictureOf([{ ...grid, modules: grid.modules.map((it, k) => it ^ isInside(k)) }]),
      { mostUnread: 2 });
    return [symbols.length, unread[0].rows, unread[0].fault.code];
  },
  quality: () => {
    const [{ quality }] = read(pictureOf([write("one")]), { quality: true }).symbols;
    const [{ quality: other }] = read(pictureOf([write("one")])).symbols;
    return { ...quality, modulations: quality.modulations.length, unasked: other ?? null };
  },
  "of no pixels": () => read({ data: new Uint8Array(0), width: 0, height: 5 }),
  "of other pixels": () => read({ data: new Uint8Array(7), width: 2, height: 2 }),
};
for (const [name, act] of Object.entries(TASKS)) {
  let answer;
  try { answer = { came: act() }; } catch (why) {
    answer = { thrown: why.name, message: why.message, isRefused: why instanceof Refused, code: why.code ?? null };
  }
  console.log(JSON.stringify({ name, ...answer }));
}
