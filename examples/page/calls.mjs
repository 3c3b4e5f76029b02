// node calls.mjs: every function of grumpy.mjs, and what it answers; then where it differs from the header in sizes and
// numbers.
import { readFileSync } from "node:fs";
import { Grumpy, MEANINGS, NoStack, SIZES } from "../../include/grumpy.mjs";

const box = await Grumpy.load(readFileSync(process.env.GRUMPY_WASM));
const text = (bytes) => JSON.stringify(new TextDecoder().decode(bytes));
const shown = (word) => (typeof word === "object" ? JSON.stringify(word) : word);
const tell = (...words) => console.log(...words.map(shown));
const ran = ({ printed, ...others }) => tell("run", others, text(printed));
const wrote = ({ bytes, ...others }) => tell("write", others, text(bytes));

tell("check", box.check("1+2"));
tell("check", box.check("for i in 0..3{tt}"), box.check("for i in 0..3{tt}", { edition: 2 }));
tell("check", box.check(new Uint8Array(60000)));
ran(box.run("let u=putchar(72) in putchar(105)-106"));
ran(box.run("1.0/3.0"));
ran(box.run("not true"));
ran(box.run("ref ref 1"));
ran(box.run("while true{tt}", { allowance: 10 }));
ran(box.run("putchar(65)", { room: 0 }));
tell("profile", box.profile("1+2"));
wrote(box.write("1+2/* three */"));
wrote(box.store("1+2"));
tell("checkStored", box.checkStored("0003\n31\n2B\n32\n"), box.checkStored("0002\n31\n"));
ran(box.runStored("0003\n31\n2B\n32\n"));
tell("checkPair", box.checkPair("def f():int{1}\n", "1+\ng()"));
ran(box.runPair("def f():int{1}", "f()/0"));
ran(box.pay("def pay(a:int,b:int):int{a-b}", 3, 5));

for (const words of [[1.5, 1], [-1, 1], [1, 2147483648], ["1)+pay(1", 1]]) {
  try {
    box.pay("def pay(a:int,b:int):int{a}", ...words);
  } catch (error) {
    tell(error.name, error.message);
  }
}

// Called from so deep that the engine's stack is short: the sheet is not answered, and the next one is.
const deepest = "(".repeat(1359) + "1.0";
tell("check", box.check(deepest));
const from = (depth) => (depth > 0 ? from(depth - 1) : box.check(deepest));
let short = false;
for (let depth = 1000; !short; depth += 500) {
  try {
    from(depth);
  } catch (error) {
    if (!(error instanceof NoStack)) throw error;
    short = true;
  }
}
tell("check", box.check(deepest));

const header = readFileSync(new URL("../../include/grumpy.h", import.meta.url), "utf8");
const defined = (name) => Number(header.match(new RegExp(`^#define GRUMPY_${name} (\\d+)`, "m"))?.[1]);
const sizes = Object.keys(SIZES).filter((name) => SIZES[name] !== defined(name));
const numbers = header.slice(header.indexOf("#define GRUMPY_OK"), header.indexOf("/* the types"));
const all = [...numbers.matchAll(/^#define \w+ (\d+)/gm)].map(([, n]) => n);
const others = [...all.filter((n) => !MEANINGS[n]), ...Object.keys(MEANINGS).filter((n) => !all.includes(n))];
tell("not as in the header:", [...sizes, ...others]);
