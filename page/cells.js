// Numbers of the machine that the terminal and the page know. tools/make-words writes this file from the crates.
// Addresses in the memory of a machine, which the system keeps for itself (crates/memory/src/system.rt).
export const SYSTEM = {
  state: 16,
  base: 18,
  toIn: 20,
  blk: 22,
  numberTib: 24,
  span: 26,
  dp: 28,
  last: 30,
  context: 32,
  current: 34,
  hld: 36,
  scr: 38,
  fault: 40,
  forthVoc: 42,
  vocLink: 52,
  fence: 54,
  runtimeCells: 64,
  tib: 128,
};
// What a word's code field has that a defining word made (crates/dictionary/src/code_fields.rt).
export const CODES = {
  colon: 1,
  variable: 2,
  constant: 3,
  vocabulary: 4,
};
// Faults of the machine (crates/machine_parts/src/faults.rt).
export const MACHINE_FAULTS = {
  dataUnderflow: 1,
  dataOverflow: 2,
  returnUnderflow: 3,
  returnOverflow: 4,
  division: 5,
  unknownCode: 6,
  noBlock: 7,
  dictionaryFull: 8,
  readFailed: 9,
  writeFailed: 10,
  chainTooLong: 11,
  badBase: 12,
  notFound: 13,
  badLength: 15,
  blockZero: 16,
  aborted: 17,
};
