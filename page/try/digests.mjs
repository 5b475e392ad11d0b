// What the package says of files, as a digest for each, so that browsers and Node can be compared.
//
//     node page/try/digests.mjs FOLDER
//
// Node prints a line for each .ans file of FOLDER, in the order of their names: its digest, a blank and its name.

const ALL_CHANGES = {
  takeOut: true, crlf: true, joinRows: true, leastLines: true, nameColours: true, mixed: true, ice: true, record: true,
  addRecord: 80,
};
const CHANGES = [{}, ALL_CHANGES, { lines: 30 }];
const STARTS = ["any", "cleared", ["screen", "cursor"]];

/** All that a checker says of a file. */
function allOf(checker, file) {
  return [
    ...STARTS.map((start) => checker.check(file, start)),
    checker.needs(file), checker.why(file), checker.record(file), checker.row(file),
    ...CHANGES.map((changes) => checker.mend(file, changes)),
    checker.redraw(file),
  ];
}

const hexadecimal = (bytes) => Array.from(bytes, (byte) => byte.toString(16).padStart(2, "0")).join("");

/** Bytes of an answer in JSON. */
const withBytes = (_, value) => (value instanceof Uint8Array ? hexadecimal(value) : value);

async function digestOf(checker, file) {
  const text = JSON.stringify(allOf(checker, file), withBytes);
  return hexadecimal(new Uint8Array(await crypto.subtle.digest("SHA-256", new TextEncoder().encode(text))));
}

/** The digests of files, in their order. */
export async function digestsOf(checker, files) {
  const digests = [];
  for (const file of files) digests.push(await digestOf(checker, file));
  return digests;
}

async function main(folder) {
  const { readdirSync, readFileSync } = await import("node:fs");
  const { load } = await import("../../library/js/index.js");
  const names = readdirSync(folder).filter((name) => name.endsWith(".ans")).sort();
  const digests = await digestsOf(await load(), names.map((name) => readFileSync(`${folder}/${name}`)));
  names.forEach((name, i) => console.log(`${digests[i]} ${name}`));
}

if (globalThis.process?.argv[1]?.endsWith("digests.mjs")) await main(process.argv[2]);
