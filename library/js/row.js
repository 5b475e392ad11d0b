// The structure that ans_row_on writes, as an object with words.

import { textOf } from "./characters.js";
import { PARTS } from "./numbers.js";

/** The ways in which players differ, in the order of their bits. */
const KINDS = ["wrap-at-once", "line-ends", "home-on-clear", "clear-in-colour", "save-place-only", "dos-colours",
  "tab-prints", "line-erased", "wrap-off", "stops-at-edge", "page-controls", "terminal-controls", "own-colours"];

/** What bytes are recognised as, by number. */
const KNOWN = [null, "ANSI music", "a font selection", "a 24-bit colour", "the switch for bright backgrounds",
  "the switch that hides or shows the cursor", "a screen mode of DOS", "a reassigned key",
  "comments that the record does not count", "an older record", "an arrow in the drawing",
  "a sequence of modern terminals", "another drawing", "an XBin file", "a ZIP archive", "a drawing in AVATAR codes",
  "BinaryText, pairs of a character and a colour", "text with PCBoard colour codes (@X1F)",
  "text with Renegade or Telegard colour codes (|07)", "text with Wildcat colour codes (@1F@)"];

const ASPECTS = [null, "stretch", "square"];
const NOTES = [1, 2, 3, 4, 5, 6];
const LAST_RECORD_FAULT = 8;
const COMMENT_BYTES = 64;
const ROW_BYTES = 256;

const partsIn = (sum) => Object.keys(PARTS).filter((name) => sum & PARTS[name]);
const kindsIn = (sum) => KINDS.filter((_, bit) => sum & 1 << bit);

/** Bytes without the blanks and zero bytes at their end. */
function trimmed(bytes) {
  let end = bytes.length;
  while (end > 0 && (bytes[end - 1] === 0x20 || bytes[end - 1] === 0x00)) end--;
  return bytes.subarray(0, end);
}

/** Reads a structure as C lays it out: one field after the other, each aligned to its size. */
class Structure {
  constructor(bytes) {
    this.view = new DataView(bytes.buffer, bytes.byteOffset, bytes.byteLength);
    this.at = 0;
  }

  word() {
    this.at += 4;
    return this.view.getUint32(this.at - 4, true);
  }

  /** A number of the type size_t. */
  wide() {
    this.begin();
    this.at += 8;
    return Number(this.view.getBigUint64(this.at - 8, true));
  }

  /** Goes to where a structure with such a number may begin. */
  begin() {
    this.at = Math.ceil(this.at / 8) * 8;
  }

  piece() {
    return { start: this.wide(), length: this.wide() };
  }

  place() {
    const place = { row: this.wide(), column: this.wide() };
    return place.row === 0 ? null : place;
  }
}

/** The verdict, and what a file that passes relies on, which is null if it is refused. */
function passingIn(structure, isPass) {
  const needs = partsIn(structure.word());
  const players = kindsIn(structure.word());
  const needsOnAllPlayers = partsIn(structure.word());
  const tallerScreens = structure.word() === 1 ? "same" : null;
  if (!isPass) return { verdict: "refused", needs: null, players: null, needsOnAllPlayers: null, tallerScreens: null };
  const verdict = needs.length === 0 ? "pass" : "cleared";
  const isSaid = players.every((kind) => kind === "own-colours");
  return { verdict, needs, players, needsOnAllPlayers: isSaid ? needsOnAllPlayers : null, tallerScreens };
}

function faultIn(structure, faultText) {
  structure.begin();
  const number = structure.word();
  const row = structure.word() || null;
  const column = structure.word() || null;
  const offset = structure.wide();
  return number === 0 ? null : { number, offset, row, column, text: faultText(number) };
}

function blameIn(structure, faultText) {
  const fault = faultIn(structure, faultText);
  const bytes = structure.piece();
  const low = structure.place();
  const high = structure.place();
  const known = KNOWN[structure.word()];
  const lines = structure.word() || null;
  const mends = structure.word() === 1;
  return { fault, bytes: bytes.length > 0 ? bytes : null, low, high, known, lines, mends };
}

function partsTold(structure, isAccepted, bytesAt) {
  structure.begin();
  const content = structure.wide();
  const comments = bytesAt(structure.piece());
  const notes = structure.word();
  const comment = (_, at) => textOf(trimmed(comments.subarray(at * COMMENT_BYTES, (at + 1) * COMMENT_BYTES)));
  return {
    content: isAccepted ? content : null,
    comments: Array.from({ length: comments.length / COMMENT_BYTES }, comment),
    notes: NOTES.filter((note) => notes & 1 << note),
  };
}

function recordIn(structure, bytesAt) {
  structure.begin();
  const isThere = structure.word() === 1;
  const flags = structure.word();
  const ice = structure.word() === 1;
  const spacing = structure.word() || null;
  const aspect = ASPECTS[structure.word()];
  const width = structure.wide();
  const lines = structure.wide();
  const [font, date, title, author, group] = Array.from({ length: 5 }, () => textOf(bytesAt(structure.piece())));
  return isThere ? { title, author, group, date, width, lines, flags, ice, spacing, aspect, font } : null;
}

/**
 * What the bytes of the structure say. `bytesAt` gives the file's bytes of a piece, and `faultText` the text of a fault
 * by its number.
 */
function rowFrom(bytes, isPass, bytesAt, faultText) {
  const structure = new Structure(bytes);
  const passing = passingIn(structure, isPass);
  const blame = blameIn(structure, faultText);
  const isAccepted = isPass || blame.fault.number > LAST_RECORD_FAULT;
  return { ...passing, ...blame, ...partsTold(structure, isAccepted, bytesAt), record: recordIn(structure, bytesAt) };
}

export { ROW_BYTES, partsIn, rowFrom };
