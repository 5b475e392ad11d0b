// The proved checker of ANSI art files (.ANS), for JavaScript. README.md says what is proved of it.

import { Checker as Calls } from "./calls.js";
import { CLASSES, CLEARED, LONGEST_FILE, PARTS } from "./numbers.js";
import { partsIn } from "./row.js";

const MODULE = new URL("anscheck.wasm", import.meta.url);
const MOST_COLUMNS = 1024;
const MOST_LINES = 8192;
const OPTIONS = [...Object.keys(CLASSES), "addRecord", "columns", "lines"];
const TOO_LONG = "too long";

/**
 * Makes a checker.
 *
 * @param {Uint8Array | ArrayBuffer | WebAssembly.Module} [module] the bytes of `anscheck.wasm`, or the module that was
 *   compiled of them. If none is given, it is read from beside this file, in browsers by `fetch`.
 * @returns {Promise<Checker>}
 * @throws {TypeError} for anything else.
 */
export async function load(module) {
  const compiled = await compiledFrom(module);
  return new Checker(compiled, new Calls(await WebAssembly.instantiate(compiled)));
}

/**
 * A checker. Its answers are plain objects of their own: they stay as they are when it checks the next file, and none
 * of them refers to the file that was given.
 *
 * A file is a `Uint8Array` (such as a `Buffer`) or an `ArrayBuffer`, and is not changed. For a file of more than
 * 16,777,216 bytes each answer is `{ verdict: "too long" }`. An offset is in bytes from the file's start, the first
 * being 0; a row and a column are counted from 1. If there is no memory for a file, a call throws the engine's
 * `RangeError`.
 */
class Checker {
  #module;
  #calls;

  constructor(module, calls) {
    this.#module = module;
    this.#calls = calls;
  }

  /**
   * The picture that a file shows from every start of a class, or why there is none, as `anscheck check` says it.
   *
   * @param {Uint8Array | ArrayBuffer} file
   * @param {"any" | "cleared" | string[]} [start] what is known of the start: nothing ("any", as without it); all of it
   *   ("cleared"); or these parts: "screen", "cursor", "saved", "colours", "wrap". What is known is as on a cleared
   *   screen.
   * @returns {object} `{ verdict: "pass", width, lines, glyphs, attributes }`: columns and rows, and for each cell, row
   *   by row, its byte of code page 437 and its attribute, in which bits 0 to 3 are the foreground, bits 4 to 6 the
   *   background, and bit 7 is blink, or a bright background if the record's non-blink flag is set. Or
   *   `{ verdict: "refused", fault: { number, offset, row, column, text } }`: the fault's number, 25 for F25, its
   *   offset, the cell of F25 (otherwise null and null), and its number and name as text. Or
   *   `{ verdict: "too long" }`.
   * @throws {TypeError} for another start, or for anything but a file.
   */
  check(file, start = "any") {
    const known = partsKnown(start);
    return this.#answer(file, (calls) => told(calls, calls.check(known), ({ columns, lines, glyphs, attributes }) => (
      { width: columns, lines, glyphs, attributes })));
  }

  /**
   * The parts of the start that a file relies on, as `anscheck needs` says them.
   *
   * @param {Uint8Array | ArrayBuffer} file
   * @returns {object} `{ verdict: "pass", needs }`: it passes from the cleared start, and exactly if each of these
   *   parts is known; there are none if it shows its picture from every start. Or `refused` with the fault, as for
   *   `check`: it does not pass even from the cleared start. Or `{ verdict: "too long" }`.
   * @throws {TypeError} for anything but a file.
   */
  needs(file) {
    return this.#answer(file, (calls) => told(calls, calls.needs(), ({ parts }) => ({ needs: partsIn(parts) })));
  }

  /**
   * What `anscheck why` and `anscheck table` say of a file, in numbers and words.
   *
   * @param {Uint8Array | ArrayBuffer} file
   * @returns {object} `{ verdict, needs, players, needsOnAllPlayers, tallerScreens, fault, bytes, low, high, known,
   *   lines, mends, content, comments, notes, record }`, each as `index.d.ts` says: the verdict is "pass", "cleared" or
   *   "refused", and whatever is absent is null. Or `{ verdict: "too long" }`.
   * @throws {TypeError} for anything but a file.
   */
  row(file) {
    return this.#answer(file, (calls) => rowTold(calls.row()));
  }

  /**
   * What `anscheck why` prints about a file: where and why it is refused, or what it relies on. The commands, in its
   * lines `fix:`, `everywhere:` and `more:`, are left out: `row` says whether mending helps, and `mend` and `redraw` do it.
   *
   * @param {Uint8Array | ArrayBuffer} file
   * @returns {object} `{ verdict, text }`: "pass" or "refused" from the cleared start, and lines that each end in a
   *   line feed. Or `{ verdict: "too long" }`.
   * @throws {TypeError} for anything but a file.
   */
  why(file) {
    return this.#answer(file, (calls) => withText(calls.why()));
  }

  /**
   * What `anscheck sauce` prints about a file: what its record says, or why the record is refused.
   *
   * @param {Uint8Array | ArrayBuffer} file
   * @returns {object} `{ verdict, text }`: "pass" or "refused", and lines that each end in a line feed. Or
   *   `{ verdict: "too long" }`.
   * @throws {TypeError} for anything but a file.
   */
  record(file) {
    return this.#answer(file, (calls) => withText(calls.record()));
  }

  /**
   * A file fixed as `anscheck mend` does it, so that it passes from every start.
   *
   * @param {Uint8Array | ArrayBuffer} file
   * @param {object} [options] what may be changed besides what is changed without being asked, as the flags of
   *   `anscheck mend`: `takeOut`, `crlf`, `joinRows`, `mixed`, `nameColours`, `ice`, `record` and `leastLines` are true
   *   or false; `addRecord` is the columns of the record that is added to a file without one, 1 to 1024; `columns`
   *   those that the record is to state, 1 to 1024; `lines` the number of lines that is set if the record has too few
   *   or none, 1 to 8192.
   * @returns {object} `{ verdict: "pass", file, text }`: the fixed file as a `Uint8Array`, and what was changed, a line
   *   for each kind of change, or an empty text. Or `{ verdict: "refused", text }`: why the file cannot be fixed this
   *   way. Or `{ verdict: "too long" }`.
   * @throws {TypeError} for another option, or for anything but a file.
   * @throws {RangeError} if the columns or the lines are out of bounds.
   */
  mend(file, options = {}) {
    const { classes, addRecord, columns, lines } = changesAsked(options);
    return this.#answer(file, (calls) => withFile(calls.mend(classes, addRecord, columns, lines)));
  }

  /**
   * The picture that a file shows from the cleared start, written again from scratch as `anscheck redraw` does it, so
   * that it shows from every start.
   *
   * @param {Uint8Array | ArrayBuffer} file
   * @returns {object} `{ verdict: "pass", file, text }`: the redrawn file as a `Uint8Array`, and what was changed, a
   *   line for each kind of change. Or `{ verdict: "refused", text }`: it does not pass from the cleared start, or the
   *   redrawn one would be too long, and the text says which. Or `{ verdict: "too long" }`.
   * @throws {TypeError} for anything but a file.
   */
  redraw(file) {
    return this.#answer(file, (calls) => withFile(calls.redraw()));
  }

  /**
   * The version of the checker.
   *
   * @returns {string} such as "0.2.0".
   */
  version() {
    return this.#use((calls) => calls.version().text);
  }

  #answer(file, ask) {
    const bytes = bytesOf(file, "a file");
    if (bytes.length > LONGEST_FILE) return { verdict: TOO_LONG };
    return this.#use((calls) => {
      calls.open(bytes);
      return ask(calls);
    });
  }

  /** An instance in which something was thrown, such as for want of memory, is not used again. */
  #use(ask) {
    this.#calls ??= new Calls(new WebAssembly.Instance(this.#module));
    const calls = this.#calls;
    this.#calls = null;
    const answer = ask(calls);
    this.#calls = calls;
    return answer;
  }
}

async function compiledFrom(module) {
  if (kindOf(module) === "[object WebAssembly.Module]") return module;
  return WebAssembly.compile(module === undefined ? await bytesBeside() : bytesOf(module, "a module"));
}

/** The module's file. Node fetches none from a disk. */
async function bytesBeside() {
  if (MODULE.protocol === "file:" && globalThis.process?.versions?.node) {
    const { readFile } = await import(/* webpackIgnore: true */ /* @vite-ignore */ "node:fs/promises");
    return readFile(MODULE);
  }
  const response = await fetch(MODULE);
  if (!response.ok) throw new Error(`${MODULE}: ${response.status} ${response.statusText}`);
  return response.arrayBuffer();
}

/** What an object is, whichever frame or context made it. */
const kindOf = (given) => Object.prototype.toString.call(given);

function bytesOf(given, what) {
  if (kindOf(given) === "[object Uint8Array]") return new Uint8Array(given.buffer, given.byteOffset, given.byteLength);
  if (kindOf(given) === "[object ArrayBuffer]") return new Uint8Array(given);
  throw new TypeError(`${what} is a Uint8Array or an ArrayBuffer`);
}

function partsKnown(start) {
  if (start === "any") return 0;
  if (start === "cleared") return CLEARED;
  if (!Array.isArray(start)) throw new TypeError('a start is "any", "cleared" or an array of parts');
  return start.reduce((known, name) => known | partNamed(name), 0);
}

function partNamed(name) {
  if (Object.keys(PARTS).includes(name)) return PARTS[name];
  throw new TypeError(`a part of the start is one of ${Object.keys(PARTS).join(", ")}`);
}

/** Options as ans_mend takes them. */
function changesAsked(options) {
  if (options === null || typeof options !== "object") throw new TypeError("the options are an object");
  const unknown = Object.keys(options).find((name) => !OPTIONS.includes(name));
  if (unknown !== undefined) throw new TypeError(`${unknown} is none of the options ${OPTIONS.join(", ")}`);
  const classes = Object.keys(CLASSES).reduce((sum, name) => sum + (isAsked(options, name) ? CLASSES[name] : 0), 0);
  const addRecord = numberAsked(options, "addRecord", MOST_COLUMNS);
  const columns = numberAsked(options, "columns", MOST_COLUMNS);
  return { classes, addRecord, columns, lines: numberAsked(options, "lines", MOST_LINES) };
}

function isAsked(options, name) {
  const value = options[name] ?? false;
  if (typeof value !== "boolean") throw new TypeError(`${name} is true or false`);
  return value;
}

/** 0 if none is asked for. */
function numberAsked(options, name, most) {
  const value = options[name];
  if (value === undefined) return 0;
  if (typeof value !== "number") throw new TypeError(`${name} is a number`);
  if (Number.isInteger(value) && value >= 1 && value <= most) return value;
  throw new RangeError(`${name} is a whole number from 1 to ${most}`);
}

/** A verdict with what goes with a pass, or with the fault. */
function told(calls, answered, passed) {
  if (answered.answer === "pass") return { verdict: "pass", ...passed(answered) };
  if (answered.answer === "refused") return { verdict: "refused", fault: faultTold(calls, answered.fault) };
  throw unforeseen(answered.answer);
}

function faultTold(calls, { number, offset, row, column }) {
  const text = calls.faultText(number).text;
  return { number, offset, row: row || null, column: column || null, text };
}

function rowTold({ answer, row }) {
  if (row) return row;
  throw unforeseen(answer);
}

function withText({ answer, text }) {
  if (answer === "pass" || answer === "refused") return { verdict: answer, text };
  throw unforeseen(answer);
}

function withFile({ answer, bytes, changes }) {
  if (answer === "pass") return { verdict: "pass", file: bytes, text: changes };
  if (answer === "refused") return { verdict: "refused", text: changes };
  throw unforeseen(answer);
}

/** An answer that cannot come, since the room that is lent and the numbers that are given are right. */
const unforeseen = (answer) => new Error(`the module answers "${answer}"`);
