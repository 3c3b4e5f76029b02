// The types of grumpy.mjs.

/** A sheet: a string, which is read as UTF-8, or its bytes. */
export type Sheet = string | Uint8Array;

/** "int", "bool", "unit" or "float", with " ref" behind it as often as it is a reference; null where there is none. */
export type TypeName = string | null;

export interface Edition {
  /** 1, which is the default, or 2, which has counted loops. */
  edition?: number;
}

export interface Lent extends Edition {
  /** The units that a run may use, 1,000,000 if it is left out. */
  allowance?: number;
  /** The bytes that it may print, 65,536 if it is left out and at most. */
  room?: number;
}

export interface Checked {
  /** One of the keys of MEANINGS; 0 where the sheet passed. */
  number: number;
  /** A byte of the sheet, counted from 0; of a stored sheet a line, counted from 1; 0 where the number has none. */
  place: number;
  type: TypeName;
}

export interface Ran extends Checked {
  /** An int or float, or a bool; null of another type, and where the number is not 0. */
  value: number | boolean | null;
  units: number;
  printed: Uint8Array;
}

export interface Profiled extends Checked {
  /** The units that the sheet can use at most, 0 unless the number is 0. */
  units: number;
}

export interface Wrote {
  number: number;
  place: number;
  bytes: Uint8Array;
}

export interface Spot {
  /** Which of two sheets holds the place, 1 or 2; the place is counted there. */
  sheet: number;
  /** Where the line around the place begins in that sheet, and where it ends, in bytes. */
  begin: number;
  end: number;
}

export declare const MEANINGS: Readonly<Record<number, string>>;

export declare const SIZES: Readonly<{
  SOURCE: number;
  STORED: number;
  TABLE: number;
  WORK: number;
  ALLOWANCE: number;
}>;

/** The engine's own stack was too short for a sheet, which was not answered. */
export declare class NoStack extends Error {}

export declare class Grumpy {
  static load(source: BufferSource | Response): Promise<Grumpy>;
  constructor(module: WebAssembly.Module);
  check(sheet: Sheet, how?: Edition): Checked;
  run(sheet: Sheet, how?: Lent): Ran;
  profile(sheet: Sheet, how?: Edition): Profiled;
  write(sheet: Sheet, how?: Edition): Wrote;
  store(sheet: Sheet, how?: Edition): Wrote;
  checkStored(form: Sheet, how?: Edition): Checked;
  runStored(form: Sheet, how?: Lent): Ran;
  checkPair(first: Sheet, second: Sheet, how?: Edition): Checked & Spot;
  runPair(first: Sheet, second: Sheet, how?: Lent): Ran & Spot;
  /** A rate sheet with pay(picks,rate) set under it; a RangeError where these are no whole numbers up to 2147483647. */
  pay(book: Sheet, picks: number, rate: number, how?: Lent): Ran & Spot;
}
