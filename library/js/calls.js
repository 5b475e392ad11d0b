// The checker's module, as ans.h describes its exports. They take and give pointers and lengths of 64 bits, as BigInt,
// whether the module's memory has 32-bit addresses or 64-bit ones. The browser page has this file too.

import { CLASSES, LONGEST_FILE } from "./numbers.js";
import { ROW_BYTES, rowFrom } from "./row.js";

const ANSWERS = { 0: "pass", 1: "refused", 3: "too long", 4: "no room", 5: "wrong number" };

const FAULT_BYTES = 24;
const SIZE_BYTES = 24;
const LENGTH_BYTES = 8;
const SCREEN_ROW_BYTES = 24;
const BYTES_OF_A_COLUMN = 4;
const ALIGNMENT = 16;
const MEMORY_PAGE = 65536;
const FIRST_TEXT_ROOM = 65536;
const MENDING_ROOM = 155;
const MOST_ROWS = 8193;
const MOST_BYTES = 33558528;
const LINE_FEED = 0x0a;

/** One instance of the module. After a trap it is dead, and a new one has to be made. */
class Checker {
  constructor(instance) {
    this.exports = instance.exports;
    this.open(new Uint8Array(0));
  }

  /** Puts a file where all later calls find it. What the module itself keeps is below `__heap_base`. */
  open(file) {
    this.end = Number(this.exports.__heap_base.value);
    this.fault = this.take(FAULT_BYTES);
    this.sizes = this.take(SIZE_BYTES);
    this.length = this.take(LENGTH_BYTES);
    this.file = this.array(file.length);
    this.bytesOf(this.file).set(file);
    this.sizeAnswer = this.exports.ans_size(...this.file, this.sizes, this.fault);
    this.pictureSize = this.sizeAnswer === 0 ? this.readSize() : { columns: 0, lines: 0, cells: 0 };
    const { columns, lines } = this.pictureSize;
    const rows = this.sizeAnswer === 0 ? lines + 1 : 0;
    this.screen = this.screenOf(rows, BYTES_OF_A_COLUMN * columns * rows);
  }

  /** What a screen needs: records of that many rows, and that many bytes. */
  screenOf(rows, bytes) {
    return [this.take(rows * SCREEN_ROW_BYTES), BigInt(rows), ...this.array(bytes)];
  }

  /** The size of the picture, or why there is none. */
  size() {
    return this.answered(this.sizeAnswer, () => this.pictureSize);
  }

  /** The picture from the starts of a class, which is a sum of PARTS. */
  check(known) {
    return this.borrowing(() => {
      const { columns, lines, cells } = this.pictureSize;
      const glyphs = this.array(cells);
      const attributes = this.array(cells);
      const code = this.exports.ans_check_on(...this.file, known, ...this.screen, ...glyphs, ...attributes, this.fault);
      return this.answered(code, () => (
        { columns, lines, glyphs: this.copyOf(glyphs), attributes: this.copyOf(attributes) }));
    });
  }

  /** The parts of the start that the drawing needs, as a sum of PARTS. */
  needs() {
    return this.borrowing(() => {
      const parts = this.take(LENGTH_BYTES);
      const code = this.exports.ans_needs_on(...this.file, ...this.screen, parts, this.fault);
      return this.answered(code, () => ({ parts: this.view().getUint32(Number(parts), true) }));
    });
  }

  /** What is known of the file, in numbers and words: there is a `row` whether it passes or is refused. */
  row() {
    return this.borrowing(() => {
      const told = this.array(ROW_BYTES);
      const answer = ANSWERS[this.exports.ans_row_on(...this.file, ...this.screen, told[0])];
      if (answer !== "pass" && answer !== "refused") return { answer };
      return { answer, row: rowFrom(this.bytesOf(told).slice(), answer === "pass",
        (piece) => this.bytesAt(piece), (number) => this.faultText(number).text) };
    });
  }

  why() {
    return this.text("ans_why_on", [...this.file, ...this.screen]);
  }

  record() {
    return this.text("ans_record", this.file);
  }

  /**
   * The fixed file, and what was changed; or why there is none. What may be changed besides what is changed without
   * being asked is a sum of CLASSES, the columns of a record to add, and the columns and the lines to state, each 0 for
   * none.
   */
  mend(classes, addRecord, columns, lines) {
    return this.borrowing(() => {
      const room = this.mendingRoom(classes);
      const screen = this.screenOf(MOST_ROWS, MOST_BYTES);
      const draft = this.array(room);
      const mended = this.array(room);
      const text = this.array(FIRST_TEXT_ROOM);
      const size = this.take(LENGTH_BYTES);
      const answer = ANSWERS[this.exports.ans_mend_on(
        ...this.file, classes, addRecord, columns, lines, ...screen, ...draft, ...mended, size, ...text, this.length)];
      if (answer === "no room") throw new Error("ans_mend_on has too little room");
      const changes = new TextDecoder().decode(this.bytesOf(text).subarray(0, this.numberAt(this.length)));
      const bytes = answer === "pass" ? this.bytesOf(mended).slice(0, this.numberAt(size)) : null;
      return { answer, changes, bytes };
    });
  }

  /**
   * How many bytes the draft needs: with `crlf` one more for each line feed; with `nameColours` eight more for each
   * byte and eight, up to the longest file.
   */
  mendingRoom(classes) {
    const file = this.bytesOf(this.file);
    const most = classes & CLASSES.nameColours ? Math.min(LONGEST_FILE, 9 * file.length + 8) : file.length;
    const more = classes & CLASSES.crlf ? file.reduce((count, byte) => count + (byte === LINE_FEED), 0) : 0;
    return most + MENDING_ROOM + more;
  }

  /** The redrawn file, and what was changed; or why there is none. The first call asks how many bytes it needs. */
  redraw() {
    const asked = this.redrawIn(0);
    const told = asked.answer === "no room" ? this.redrawIn(asked.size) : asked;
    if (told.answer === "no room") throw new Error("ans_redraw_on has too little room");
    return told;
  }

  redrawIn(room) {
    return this.borrowing(() => {
      const redrawn = this.array(room);
      const text = this.array(FIRST_TEXT_ROOM);
      const count = this.take(LENGTH_BYTES);
      const answer = ANSWERS[this.exports.ans_redraw_on(
        ...this.file, ...this.screen, ...redrawn, count, ...text, this.length)];
      const size = this.numberAt(count);
      const changes = new TextDecoder().decode(this.bytesOf(text).subarray(0, this.numberAt(this.length)));
      return { answer, size, changes, bytes: answer === "pass" ? this.bytesOf(redrawn).slice(0, size) : null };
    });
  }

  faultText(number) {
    return this.text("ans_copy_fault_text", [number]);
  }

  noteText(number) {
    return this.text("ans_copy_note_text", [number]);
  }

  version() {
    return this.text("ans_copy_version", []);
  }

  /** What an export writes as text. A second call has the room that the first one asks for. */
  text(name, words) {
    const told = this.textIn(name, words, FIRST_TEXT_ROOM);
    const isLonger = told.answer === "no room" && told.length > FIRST_TEXT_ROOM;
    const whole = isLonger ? this.textIn(name, words, told.length) : told;
    if (whole.answer === "no room") throw new Error(`${name} has too little room`);
    return whole;
  }

  textIn(name, words, room) {
    return this.borrowing(() => {
      const text = this.array(room);
      this.view().setBigUint64(Number(this.length), 0n, true);
      const answer = ANSWERS[this.exports[name](...words, ...text, this.length)];
      const length = this.numberAt(this.length);
      return { answer, length, text: new TextDecoder().decode(this.bytesOf(text).subarray(0, length)) };
    });
  }

  answered(code, passed) {
    const answer = ANSWERS[code];
    if (answer === "pass") return { answer, ...passed() };
    return answer === "refused" ? { answer, fault: this.readFault() } : { answer };
  }

  readFault() {
    const view = new DataView(this.exports.memory.buffer, Number(this.fault), FAULT_BYTES);
    return {
      number: view.getUint32(0, true),
      row: view.getUint32(4, true),
      column: view.getUint32(8, true),
      offset: Number(view.getBigUint64(16, true)),
    };
  }

  readSize() {
    const view = new DataView(this.exports.memory.buffer, Number(this.sizes), SIZE_BYTES);
    return {
      columns: view.getUint32(0, true),
      lines: view.getUint32(4, true),
      cells: Number(view.getBigUint64(8, true)),
    };
  }

  /** Room in the module's memory until `use` has ended. */
  borrowing(use) {
    const end = this.end;
    try {
      return use();
    } finally {
      this.end = end;
    }
  }

  /** A pointer and a length, as an export takes an array. */
  array(length) {
    return [this.take(length), BigInt(length)];
  }

  take(size) {
    const at = Math.ceil(this.end / ALIGNMENT) * ALIGNMENT;
    this.end = at + size;
    const missing = this.end - this.exports.memory.buffer.byteLength;
    if (missing > 0) this.grow(Math.ceil(missing / MEMORY_PAGE));
    return BigInt(at);
  }

  /** Growing detaches each view of the memory, so none is kept. */
  grow(pages) {
    this.exports.memory.grow(pages);
  }

  /** The bytes of a piece of the file. */
  bytesAt({ start, length }) {
    return this.bytesOf(this.file).slice(start, start + length);
  }

  /** Bytes of their own: made of a view, which is quicker than its `slice`. */
  copyOf(array) {
    return new Uint8Array(this.bytesOf(array));
  }

  bytesOf([at, length]) {
    return new Uint8Array(this.exports.memory.buffer, Number(at), Number(length));
  }

  /** A length that an export has written. */
  numberAt(pointer) {
    return Number(this.view().getBigUint64(Number(pointer), true));
  }

  view() {
    return new DataView(this.exports.memory.buffer);
  }
}

export { Checker };
