// Answers what the page asks about one drawing after the other. It runs in a worker, after calls.js.

import { Checker } from "../../library/js/calls.js";
import { CLASSES, CLEARED } from "../../library/js/numbers.js";

const RECORD_BYTES = 128;
const LINES = 98;
const COMMENT_COUNT = 104;
const END_MARK = 0x1a;
const BLINK = 0x80;
const BLANKS = [0x00, 0x20, 0xff];
const FIRST_ON_COLOUR = 0x10;

let begun = null;
let module = null;
let checker = null;

const newChecker = () => new Checker(new WebAssembly.Instance(module));

/** A file of the content's first bytes, with the same record, but without comments. */
function shortened(file, length) {
  const record = file.slice(file.length - RECORD_BYTES);
  record[COMMENT_COUNT] = 0;
  const short = new Uint8Array(length + 1 + RECORD_BYTES);
  short.set(file.subarray(0, length));
  short[length] = END_MARK;
  short.set(record, length + 1);
  return short;
}

/** The same file with another number of lines in its record. */
function withLines(file, lines) {
  const changed = file.slice();
  new DataView(changed.buffer).setUint16(changed.length - RECORD_BYTES + LINES, lines, true);
  return changed;
}

/** Whether a picture shows nothing: only blanks, all of them on black. */
const isEmpty = ({ glyphs, attributes }) => (
  glyphs.every((glyph, cell) => BLANKS.includes(glyph) && attributes[cell] < FIRST_ON_COLOUR));

/** How many sequences were removed, and where the first was, by what was said of the changes. */
function takenOut(changes) {
  const taken = [...changes.matchAll(/^removed (?!\d).* at (\d+)(?:, and (\d+) more like it)?$/gm)];
  return {
    count: taken.reduce((sum, [, , more = 0]) => sum + 1 + Number(more), 0),
    first: Math.min(...taken.map(([, first]) => Number(first))),
  };
}

/** The picture of a copy that is fixed this way, with what it is without; or nothing. */
function pictureMended(file, classes) {
  checker.open(file);
  const { answer, changes, bytes } = checker.mend(classes, 0, 0, 0);
  const without = answer === "pass" ? takenOut(changes) : { count: 0 };
  if (without.count === 0) return null;
  checker.open(bytes);
  const { ice } = checker.row().row.record;
  return { ...checker.check(CLEARED), brightBackgrounds: ice, without };
}

/** The picture without the refused sequences, if removing them is enough. */
function pictureWithout(file) {
  const picture = pictureMended(file, CLASSES.takeOut) ?? pictureMended(file, CLASSES.takeOut | CLASSES.leastLines);
  return picture && !isEmpty(picture) ? picture : null;
}

/** The picture of a changed copy from the cleared screen, or nothing. */
function pictureOfCopy(copy) {
  checker.open(copy);
  const { answer, ...picture } = checker.check(CLEARED);
  return answer === "pass" ? picture : null;
}

/**
 * The picture from the cleared screen. If the drawing is refused, the picture with as many lines as would do; else what
 * comes before the fault; and if that shows nothing, the picture without the sequences that are removed. Each is that
 * of a changed copy.
 */
function pictureOf(file, lines) {
  const { answer, fault, ...picture } = checker.check(CLEARED);
  if (answer === "pass") return picture;
  if (lines) return withWords(pictureOfCopy(withLines(file, lines)), { moreLines: lines });
  const before = pictureOfCopy(shortened(file, fault.offset));
  const without = before && isEmpty(before) ? pictureWithout(file) : null;
  return without ?? withWords(before, { upTo: fault.offset });
}

/** A picture with what it is, if there is one. */
const withWords = (picture, words) => picture && { ...picture, ...words };

/** What the checker says of a file. If it is looked at, these are also the program's lines, and its picture. */
function study(file, isLookedAt) {
  checker.open(file);
  const { answer, row } = checker.row();
  if (!isLookedAt) return { answer, row };
  const why = checker.why().text;
  const record = checker.record();
  const hasPicture = checker.size().answer === "pass" || row.lines;
  const picture = hasPicture ? pictureOf(file, row.lines) : null;
  return { answer, row, why, record: record.answer === "pass" ? record.text : "",
    picture: picture && shownFrom(picture, row.record) };
}

/** A picture with what its attributes mean. */
const shownFrom = (picture, record) => ({
  brightBackgrounds: record.ice,
  blinks: picture.attributes.some((attribute) => attribute >= BLINK),
  ...picture,
});

/** The fixed file, what was changed, and what is said of it with its picture; or why there is none. */
function mend(file, { classes, addRecord, columns, lines }) {
  checker.open(file);
  const { answer, changes, bytes } = checker.mend(classes, addRecord, columns, lines);
  if (answer !== "pass") return { answer, changes, bytes: null, row: null, picture: null };
  checker.open(bytes);
  const { row } = checker.row();
  return { answer, changes, bytes, row, picture: shownFrom(checker.check(CLEARED), row.record) };
}

/** The redrawn file, what was changed, and what is said of it before and after; or why there is none. */
function redraw(file) {
  checker.open(file);
  const { answer, changes, bytes } = checker.redraw();
  if (answer !== "pass") return { answer, changes, bytes: null, before: null, after: null };
  const before = checker.row().row;
  checker.open(bytes);
  return { answer, changes, bytes, before, after: checker.row().row };
}

/** WebKit reads no blob in a worker of a page from a disk, so the bytes are written to the stream. */
async function unpacked(bytes) {
  const stream = new DecompressionStream("gzip");
  const writer = stream.writable.getWriter();
  writer.write(bytes);
  writer.close();
  return new Response(stream.readable).arrayBuffer();
}

async function begin(packedModule) {
  module = await WebAssembly.compile(await unpacked(packedModule));
  checker = newChecker();
  postMessage({ version: checker.version().text });
}

async function answered(file, { isLookedAt, mends, redraws }) {
  try {
    await begun;
    checker ??= newChecker();
    if (redraws) return redraw(file);
    return mends ? mend(file, mends) : study(file, isLookedAt);
  } catch (error) {
    checker = null;
    return { answer: "stopped", why: "", record: "", row: null, changes: "", picture: null, error: String(error) };
  }
}

onmessage = async ({ data }) => {
  if (data.packedModule) {
    begun = begin(data.packedModule);
    return;
  }
  const result = await answered(new Uint8Array(data.file), data);
  const arrays = result.picture ? [result.picture.glyphs.buffer, result.picture.attributes.buffer] : [];
  postMessage({ number: data.number, ...result }, arrays);
};
