// Puts pictures to the sampler in WebAssembly, as the page has it:
// node finder.mjs LIBRARY.wasm SAMPLER.wasm < QUESTIONS
// A question is a line of JSON: { file } is a picture in PGM; { width, height, kind, seed } is one that is made here,
// of noise, stripes, squares or one grey; `most`, `mostUnread` and `milliseconds` go to the search. Each is answered by
// a line: what was found, its milliseconds of a processor, and how many bytes the memory then has; or what was thrown.
import { readFileSync } from "node:fs";
import { Ecc200 } from "../../web/ecc200.mjs";

const ecc200 = await Ecc200.load(readFileSync(process.argv[2]), readFileSync(process.argv[3]));

function pictureIn(file) {
  const bytes = readFileSync(file), [head, width, height] = /^P5\s+(\d+)\s+(\d+)\s+255\s/.exec(
    bytes.subarray(0, 40).toString("latin1"));
  return { width: Number(width), height: Number(height), data: new Uint8Array(bytes.subarray(head.length)) };
}
function chanceFrom(seed) {
  let state = seed;
  return (below) => { state = (Math.imul(state, 1103515245) + 12345) & 0x7fffffff; return (state >>> 8) % below; };
}
const KINDS = {
  noise: (_across, _down, chance) => chance(256),
  grey: () => 200,
  stripes: (across) => 255 * (across & 1),
  squares: (across, down) => 255 * ((across ^ down) & 1),
  weave: (across, down) => ((across * 7 + down * 13 + ((across * down) >> 2)) % 3 ? 255 : 0),
};
function pictureOf({ width, height, kind, seed = 1 }) {
  const chance = chanceFrom(seed), each = 1 + chance(9), data = new Uint8Array(width * height);
  const at = (place) => Math.floor(place / each);
  for (let k = 0; k < data.length; k++) data[k] = KINDS[kind](at(k % width), at(Math.floor(k / width)), chance);
  return { width, height, data };
}
const plain = ({ modules, doubtful, ...symbol }) =>
  ({ ...symbol, modules: modules.join(""), doubtful: doubtful ? doubtful.join("") : "" });
function answered({ file, width, height, kind, seed, ...asked }) {
  const picture = file ? pictureIn(file) : pictureOf({ width, height, kind, seed }), begun = process.cpuUsage();
  try {
    const { symbols, unread, isComplete } = ecc200.read(picture, asked);
    const { user, system } = process.cpuUsage(begun), time = (user + system) / 1000, bytes = ecc200.sampler.size;
    return { symbols: symbols.map(plain), unread: unread.map(plain), isComplete, time, bytes };
  } catch (why) { return { thrown: `${why.name}: ${why.message}` }; }
}
for (const line of readFileSync(0, "utf8").split("\n").filter(Boolean))
  console.log(JSON.stringify(answered(JSON.parse(line))));
