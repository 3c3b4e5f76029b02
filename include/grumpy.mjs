// The box in node or in a browser: grumpy.wasm, which tools/wasm links, behind functions that take a sheet and answer
// an object. grumpy.d.mts has the types; what the numbers mean and what is promised is in grumpy.h.
//
//     const box = await Grumpy.load(bytes)        // or a Response, as of fetch
//     box.pay(book, 70000, 3)                     // { number: 0, type: "int", value: 225, units: 422, printed, .. }
//
// A sheet is a string, which is read as UTF-8, or bytes; places are bytes. Nothing is kept between calls.
//
// Besides the stack in its own memory the box takes some of the engine's, half a megabyte for the deepest sheets. Where
// an engine has less it throws in the midst of a call: then the sheet is not answered, and a NoStack is thrown. Node
// has twice as much, and a page in Chromium enough; a Worker there has a little less.

/** The numbers of grumpy.h, in words. */
export const MEANINGS = {
  0: "all is well",
  10: "the sheet has more than 49152 bytes",
  11: "a byte that begins no token",
  12: "a comment that is never closed",
  13: "a number over 2147483647",
  14: "more than 1360 tokens",
  15: "a number with a point and more than 15 digits",
  20: "not a program: nothing that could follow stands here",
  30: "more than 32 functions, or more than 8 parameters",
  31: "a function of this name is there already",
  32: "a parameter of this name is there already",
  33: "no typing rule fits",
  34: "a type with more than 15 ref",
  35: "no variable of this name is in sight",
  36: "no function of this name is in sight",
  37: "the function takes another number of arguments",
  40: "a memory is too short",
  41: "the allowance is over 1000000",
  42: "the edition is neither 1 nor 2",
  43: "a pay sheet has no loop and no function that calls itself",
  44: "what would be written is longer than the room for it",
  45: "the sheet may use more than 1000000 units",
  46: "more than 65536 lines",
  47: "no pay from two ints to int, or something outside the functions",
  50: "stopped: the allowance is used up",
  51: "stopped: too deep, 512 nodes are at work",
  52: "stopped: a result does not fit 32 bits",
  53: "stopped: a division by zero",
  54: "stopped: a cell is used after its block ended",
  55: "stopped: all 1024 cells are in use",
  56: "stopped: putchar takes 0 to 255",
  57: "stopped: the output is full",
  58: "stopped: a counted loop with a step of zero",
  60: "not a whole line of hexadecimal digits",
  61: "the count is not that of the lines under it",
  62: "the line is not exactly one token",
};

/** Sizes of grumpy.h: bytes of a source and of a stored form, words of table and work, units. */
export const SIZES = { SOURCE: 49152, STORED: 99669, TABLE: 16384, WORK: 16384, ALLOWANCE: 1000000 };

const ROOM = 65536; // of the output, as slip has it
const REPORT = 9; // words of the longest report here
const LARGEST = 2147483647;
const BASES = [null, "int", "bool", "unit", "float"];

const typeName = (number) => (number === 0 ? null : BASES[number % 8] + " ref".repeat(number >> 3));

function valueOf(type, word) {
  if (type === "int") return Number(BigInt.asIntN(64, word));
  if (type === "bool") return word !== 0n;
  if (type === "float") return new Float64Array(new BigUint64Array([word]).buffer)[0];
  return null;
}

/** The engine's own stack was too short for a sheet. */
export class NoStack extends Error {}

export class Grumpy {
  #module;
  #box;
  #at;

  static async load(source) {
    const isResponse = typeof Response !== "undefined" && source instanceof Response;
    return new Grumpy(await (isResponse ? WebAssembly.compileStreaming(source) : WebAssembly.compile(source)));
  }

  constructor(module) {
    this.#module = module;
    this.#begin();
  }

  // An instance, and in its memory, behind the stack and the constants, all that is lent.
  #begin() {
    const box = new WebAssembly.Instance(this.#module).exports;
    let end = box.__heap_base.value;
    const lend = (bytes) => {
      const begin = (end + 7) & ~7;
      end = begin + bytes;
      return begin;
    };
    this.#at = {
      first: lend(SIZES.STORED + 1), second: lend(SIZES.SOURCE + 1), table: lend(4 * SIZES.TABLE),
      work: lend(4 * SIZES.WORK), out: lend(SIZES.STORED), report: lend(8 * REPORT),
    };
    const missing = end - box.memory.buffer.byteLength;
    if (missing > 0) box.memory.grow(Math.ceil(missing / 65536));
    this.#box = box;
  }

  // After a throw neither the box's stack nor lent memory is as it should be, so the instance is given up.
  #call(name, ...words) {
    try {
      this.#box[name](...words);
    } catch (cause) {
      this.#begin();
      throw new NoStack("the engine has too little stack for this sheet, which was not answered", { cause });
    }
  }

  // Lengths have 64 bits, and so are BigInts. One byte too many is enough to be told that a sheet is too long.
  #put(at, sheet, most) {
    const bytes = (typeof sheet === "string" ? new TextEncoder().encode(sheet) : sheet).subarray(0, most + 1);
    new Uint8Array(this.#box.memory.buffer, at, bytes.length).set(bytes);
    return [at, BigInt(bytes.length)];
  }

  #first(sheet) { return this.#put(this.#at.first, sheet, SIZES.SOURCE); }
  #second(sheet) { return this.#put(this.#at.second, sheet, SIZES.SOURCE); }
  #stored(form) { return this.#put(this.#at.first, form, SIZES.STORED); }
  #table() { return [this.#at.table, BigInt(SIZES.TABLE)]; }
  #both() { return [...this.#table(), this.#at.work, BigInt(SIZES.WORK)]; }
  #out(room) { return [this.#at.out, BigInt(Math.min(room, ROOM))]; }
  #report(words) { return [this.#at.report, BigInt(words)]; }
  #told(words) { return [...new BigUint64Array(this.#box.memory.buffer, this.#at.report, words)]; }
  #bytes(count) { return new Uint8Array(this.#box.memory.buffer, this.#at.out, count).slice(); }

  #checked() {
    const [number, place, type] = this.#told(3).map(Number);
    return { number, place, type: typeName(type) };
  }

  #ran() {
    const words = this.#told(6);
    const type = typeName(Number(words[2]));
    const value = words[0] === 0n ? valueOf(type, words[3]) : null;
    return { ...this.#checked(), value, units: Number(words[4]), printed: this.#bytes(Number(words[5])) };
  }

  #spot(from) {
    const [sheet, begin, end] = this.#told(from + 3).slice(from).map(Number);
    return { sheet, begin, end };
  }

  #wrote() {
    const [number, place, length] = this.#told(3).map(Number);
    return { number, place, bytes: this.#bytes(length) };
  }

  check(sheet, { edition = 1 } = {}) {
    this.#call("grumpy_check", edition, ...this.#first(sheet), ...this.#table(), ...this.#report(3));
    return this.#checked();
  }

  run(sheet, { edition = 1, allowance = SIZES.ALLOWANCE, room = ROOM } = {}) {
    this.#call("grumpy_run", edition, ...this.#first(sheet), ...this.#both(), ...this.#out(room), BigInt(allowance),
      ...this.#report(6));
    return this.#ran();
  }

  profile(sheet, { edition = 1 } = {}) {
    this.#call("grumpy_profile", edition, ...this.#first(sheet), ...this.#table(), ...this.#report(4));
    return { ...this.#checked(), units: Number(this.#told(4)[3]) };
  }

  write(sheet, { edition = 1 } = {}) {
    this.#call("grumpy_write", edition, ...this.#first(sheet), ...this.#table(), this.#at.out, BigInt(SIZES.SOURCE),
      ...this.#report(3));
    return this.#wrote();
  }

  store(sheet, { edition = 1 } = {}) {
    this.#call("grumpy_store", edition, ...this.#first(sheet), ...this.#table(), this.#at.out, BigInt(SIZES.STORED),
      ...this.#report(3));
    return this.#wrote();
  }

  checkStored(form, { edition = 1 } = {}) {
    this.#call("grumpy_check_stored", edition, ...this.#stored(form), ...this.#table(), ...this.#report(3));
    return this.#checked();
  }

  runStored(form, { edition = 1, allowance = SIZES.ALLOWANCE, room = ROOM } = {}) {
    this.#call("grumpy_run_stored", edition, ...this.#stored(form), ...this.#both(), ...this.#out(room),
      BigInt(allowance), ...this.#report(6));
    return this.#ran();
  }

  checkPair(first, second, { edition = 1 } = {}) {
    this.#call("grumpy_check_pair", edition, ...this.#first(first), ...this.#second(second), ...this.#table(),
      ...this.#report(6));
    return { ...this.#checked(), ...this.#spot(3) };
  }

  runPair(first, second, { edition = 1, allowance = SIZES.ALLOWANCE, room = ROOM } = {}) {
    this.#call("grumpy_run_pair", edition, ...this.#first(first), ...this.#second(second), ...this.#both(),
      ...this.#out(room), BigInt(allowance), ...this.#report(9));
    return { ...this.#ran(), ...this.#spot(6) };
  }

  // What becomes part of a call is a number: a string pasted into it could be any program.
  pay(book, picks, rate, how) {
    for (const number of [picks, rate]) {
      if (!Number.isInteger(number) || number < 0 || number > LARGEST) {
        throw new RangeError(`picks and rate are whole numbers from 0 to ${LARGEST}`);
      }
    }
    return this.runPair(book, `pay(${picks},${rate})`, how);
  }
}
