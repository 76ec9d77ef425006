// For programs that call require: the module is read by import alone, since it waits for WebAssembly as it is read.
throw new Error('ecc200 is an ES module: import { read } from "ecc200", or const { read } = await import("ecc200")');
