// The lines of a record: as `anscheck sauce` prints them, or, if it is not accepted, its fields in the same form.

import { linesOf, sizeOf } from "./why.js";

const digits = (byte) => byte.toString(16).padStart(2, "0");

function fieldLines(record) {
  const { title, author, group, date, flags, font } = record;
  const fields = { title, author, group, date, size: sizeOf(record), flags: digits(flags), font };
  return Object.entries(fields).map(([name, value]) => `${name}: ${value}`);
}

/** What is said of the record before its lines, or "". */
function recordNote({ record, row }) {
  if (record !== "" || !row) return "";
  return row.record ? `It is not accepted: ${row.fault.text}. What it says:` : "There is none.";
}

/** The lines of the record, accepted or not. */
function recordLines({ record, row }) {
  if (record !== "") return linesOf(record);
  return row?.record ? fieldLines(row.record) : [];
}

export { recordLines, recordNote };
