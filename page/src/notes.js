// What is said of a picture: what it is, and what is marked in it.

import { placesOf, sizeOf } from "./why.js";

const countOf = (number) => number.toLocaleString("en");

function withoutSentence({ count, first }, lines, record) {
  const taken = count === 1 ? `Without the sequence at byte ${countOf(first)}`
    : `Without ${countOf(count)} sequences, the first at byte ${countOf(first)}`;
  if (lines === record.lines) return `${taken}, on ${sizeOf(record)}.`;
  return `${taken}, and with ${countOf(lines)} lines. The record states ${sizeOf(record)}.`;
}

/** What the picture is, if it is not that of the file as it is. */
function partShown({ lines, upTo, moreLines, without }, record) {
  if (without) return withoutSentence(without, lines, record);
  if (upTo !== undefined) return `What comes before byte ${countOf(upTo)}, on ${sizeOf(record)}.`;
  if (moreLines === undefined) return `${sizeOf(record)}.`;
  return `As it is with ${lines} lines. The record states ${record.lines > 0 ? sizeOf(record) : "none"}.`;
}

function noteOn(picture, row) {
  const lines = row.record.lines || picture.lines;
  const places = placesOf(row).map((place) => (
    `row ${place.row}${place.row > lines ? " (below the stated lines)" : ""}, column ${place.column}`));
  return partShown(picture, row.record) + (places.length === 0 ? "" : ` Marked: ${places.join("; ")}.`);
}

export { noteOn };
