// Reads the marks of other encoders, as __init__.py says them.
import { execFileSync } from "node:child_process";
import { readFileSync } from "node:fs";

const made = () => execFileSync("python3", ["-m", "tests.corpus.damage"], { cwd: new URL("../..", import.meta.url) });
const textOf = (name) => name === "damaged" ? made() : readFileSync(new URL(`${name}.txt`, import.meta.url));
const linesOf = (name) => String(textOf(name)).split("\n").filter(Boolean);
const bitsOf = (digits) =>
  Uint8Array.from([...digits].flatMap((it) => [...parseInt(it, 16).toString(2).padStart(4, "0")]), Number);

// The marks of a file: of each its name, rows, columns, modules, which of these are doubtful, or null, and what it
// says.
export const marksOf = (file) => linesOf(file).map((line) => {
  const [name, size, modules, doubtful, said] = line.split("\t"), [rows, columns] = size.split("x").map(Number);
  return { name, rows, columns, modules: bitsOf(modules), doubtful: doubtful === "-" ? null : bitsOf(doubtful), said };
});

// Texts as labels have them.
export const texts = () => linesOf("texts").flatMap((line) => line.split("\t").slice(1));
