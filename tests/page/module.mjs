// Puts calls that tests/page/recorded.c wrote down to the library for WebAssembly:
// node module.mjs LIBRARY.wasm < CALLS. Each has to answer as it did there, and to write nothing but its output; inputs
// and output lie in turn directly before the end of the memory, behind which each access traps. Prints how many calls
// there were, or the first that differs, with status 1.
import { readFileSync, readSync } from "node:fs";

const NAME = 20, INPUTS = 3, HEAD = NAME + 4 * (3 * INPUTS + 8);
const PAGE = 65536, PAGES = 6, FIRST = 4096, FILLED = 0xee;
const STDIN = 0, BLOCK = 1 << 20;
let block = Buffer.alloc(0); // what is read and not taken yet

// So many bytes of standard input; null at its end.
function taken(count) {
  const parts = [];
  for (let missing = count; missing > 0;) {
    if (!block.length) {
      block = Buffer.allocUnsafe(BLOCK);
      block = block.subarray(0, readSync(STDIN, block));
      if (!block.length && missing < count) throw new Error("the last call is cut");
      if (!block.length) return null;
    }
    const part = block.subarray(0, missing);
    parts.push(part);
    block = block.subarray(part.length);
    missing -= part.length;
  }
  return parts.length === 1 ? parts[0] : Buffer.concat(parts);
}

// The next call with what it answered, or null after the last one.
function nextCall() {
  const head = taken(HEAD);
  if (!head) return null;
  const name = head.toString("latin1", 0, NAME).replace(/\0.*/s, "");
  const told = Array.from({ length: (HEAD - NAME) / 4 }, (_, k) => head.readUInt32LE(NAME + 4 * k));
  const first = 3 * INPUTS + 1, numbers = told.slice(first, first + told[first - 1]), [answer, size] = told.slice(-2);
  const inputs = Array.from({ length: INPUTS }, (_, k) => {
    const [width, count, isCounted] = [told[k], told[INPUTS + k], told[2 * INPUTS + k]];
    return { width, count, isCounted, bytes: taken(width * count) };
  });
  return { name, numbers, answer, inputs: inputs.filter(({ width }) => width), output: taken(size) };
}

class Room {
  constructor(library) {
    this.library = library;
    this.begin = library.memory.grow(PAGES) * PAGE; // a number: memory of 64 bits takes and gives BigInts alone
    this.end = this.begin + PAGES * PAGE;
    this.bytes = Buffer.from(library.memory.buffer, this.begin, PAGES * PAGE).fill(FILLED);
    this.untouched = Buffer.alloc(PAGES * PAGE, FILLED);
  }
  part(at, size) { return this.bytes.subarray(at - this.begin, at - this.begin + size); }
  // What is wrong about a call, or null.
  fault({ name, numbers, answer, inputs, output }, turn) {
    const parts = [...inputs.map(({ bytes }) => bytes), output], last = turn % parts.length;
    let next = this.begin + FIRST;
    const places = parts.map(({ length }, k) => {
      if (k === last) return this.end - length;
      const at = next;
      next += length + (8 - (length % 8)) + 64; // each of them is aligned, with a gap behind it
      return at;
    });
    const views = parts.map(({ length }, k) => this.part(places[k], length)), made = views[views.length - 1];
    inputs.forEach(({ bytes }, k) => views[k].set(bytes));
    const given = ({ count, isCounted }, k) => [places[k], ...(isCounted ? [count] : [])].map(BigInt);
    const list = inputs.flatMap(given);
    const out = output.length ? [BigInt(places[inputs.length])] : [];
    const got = this.library[name](...list, ...numbers, ...out) ?? 0;
    if (got !== answer) return `${got}, and not ${answer}`;
    if (!made.equals(output)) return "another output";
    if (inputs.some(({ bytes }, k) => !views[k].equals(bytes))) return "an input is changed";
    for (const view of views) view.fill(FILLED);
    return this.bytes.equals(this.untouched) ? null : "something is written beside the output";
  }
}

const { instance } = await WebAssembly.instantiate(readFileSync(process.argv[2]));
const room = new Room(instance.exports);
let calls = 0;
for (let call = nextCall(); call; call = nextCall()) {
  const fault = room.fault(call, calls++);
  if (fault) {
    console.log(`call ${calls}, ${call.name}: ${fault}`);
    process.exit(1);
  }
}
console.log(`${calls} calls`);
