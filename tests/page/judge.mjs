// Answers what the page's library says of symbols, without the page: node judge.mjs LIBRARY.wasm < QUESTIONS. A
// question is a line of JSON: { content, how } asks for a content's symbol, { rows, columns, text, doubtful, limit }
// what a grid says, { isMap, rows, columns } for the modules of each codeword, { isTable } for the sizes. Each is
// answered by a line.
import { readFileSync } from "node:fs";
import { createInterface } from "node:readline";
import { Library } from "../../web/library.mjs";

const lib = await Library.load(readFileSync(process.argv[2]));
const bitsOf = (text) => (text ? Uint8Array.from(text, Number) : null);

function read({ rows, columns, text, doubtful = "", limit = null }) {
  const grid = { modules: bitsOf(text), rows, columns };
  return lib.read(grid, lib.limitOf(grid, limit, bitsOf(doubtful)), bitsOf(doubtful));
}
function write({ content, how }) {
  const { fault, modules, rows, columns } = lib.write(content, how);
  return fault ? { fault } : { rows, columns, text: modules.join("") };
}
function answer(question) {
  if (question.isTable) return [...lib.sizes.values()];
  if (question.isMap) return lib.map(question).modules;
  return question.content ? write(question) : read(question);
}
for await (const line of createInterface({ input: process.stdin }))
  console.log(JSON.stringify(answer(JSON.parse(line))));
