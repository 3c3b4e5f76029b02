// node cases.mjs PROGRAM.wasm: runs cases.c, and prints what it puts.
import { readFileSync, writeSync } from "node:fs";

const module = new WebAssembly.Module(readFileSync(process.argv[2]));
let memory;
const put = (at, bytes) => writeSync(1, new Uint8Array(memory.buffer, at, bytes));
const { exports } = new WebAssembly.Instance(module, { env: { put } });
memory = exports.memory;
exports.cases();
