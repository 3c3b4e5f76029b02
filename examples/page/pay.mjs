// node pay.mjs SHEET PICKS RATE: the slip of a shift in node. The slip goes to standard output and the report to
// standard error. The status is 0 where the shift is paid, 1 where the sheet is refused or stopped, and 2 where the
// words do not serve. GRUMPY_WASM names the box, which tools/wasm links.
import { readFileSync, writeSync } from "node:fs";
import { Grumpy, MEANINGS } from "../../include/grumpy.mjs";

const [file, picks, rate] = process.argv.slice(2);
if (![picks, rate].every((word) => /^[0-9]+$/.test(word) && Number(word) <= 2147483647)) {
  console.error("use: node pay.mjs SHEET PICKS RATE, the last two from 0 to 2147483647");
  process.exit(2);
}

const box = await Grumpy.load(readFileSync(process.env.GRUMPY_WASM));
const ran = box.pay(readFileSync(file), Number(picks), Number(rate));
writeSync(1, ran.printed);
console.error(`number ${ran.number}: ${MEANINGS[ran.number]}`);
if (ran.number !== 0) console.error(`byte ${ran.place} of ${ran.sheet === 1 ? file : "the call"}`);
else console.error(ran.type === "int" ? `value ${ran.value}` : `pay gives ${ran.type}, and a wage is an int`);
console.error(`units ${ran.units}`);
process.exit(ran.number === 0 && ran.type === "int" ? 0 : 1);
