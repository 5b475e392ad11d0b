// Tries the page's module in Node, without a browser, beside the command line program.
//
//     node page/try_module.mjs PROGRAM [DRAWING ..]
//     node --experimental-wasm-memory64 page/try_module.mjs PROGRAM --before MODULE [DRAWING ..]
//
// PROGRAM is the built `anscheck`. The module is the one inside page/check.html, and library/js/calls.js calls it.
// About each drawing of conformance/ and crates/anscheck/data, and each that is named, it must say what PROGRAM says:
// the lines of why, the record, what is needed, the row of its table, each cell from three classes of starts, the
// drawing fixed in three ways, and the drawing redrawn. Left out are the lines that only PROGRAM has, since it tries
// what mends a file: `fix:` and `more:` of a refused one, and the flags to try. A folder means the .ans files in it.
// With --before the module with 64-bit memory that page/build.sh kept must say the same. (Newer versions of Node need
// no flag for that.) The last line is `N drawings, M differ`, and the status is 1 if one differs.
import { spawnSync } from "node:child_process";
import { readdirSync, readFileSync, statSync } from "node:fs";
import { dirname, join } from "node:path";
import { fileURLToPath } from "node:url";
import { gunzipSync } from "node:zlib";
import { Checker } from "../library/js/calls.js";
import { jsonRow, toldLines, whyLines, withoutFix, withoutFlags } from "../library/js/test/rows.js";

const PAGE = dirname(fileURLToPath(import.meta.url));
const TOP = dirname(PAGE);
const PART_NAMES = ["screen", "cursor", "saved", "colours", "wrap"];
const CLASSES = [[0, []], [3, ["--known-screen", "--known-cursor"]], [31, ["--cleared"]]];

/** What may be changed, by the sums and numbers of the module and by the flags of the program. */
const MENDS = [
  [[0, 0, 0, 0], []],
  [[255, 80, 0, 0], ["--take-out", "--crlf", "--join-rows", "--least-lines", "--name-colours", "--mixed", "--ice",
    "--record", "--add-record", "80"]],
  [[3, 0, 40, 30], ["--take-out", "--crlf", "--columns", "40", "--lines", "30"]],
];

/** The module that is packed in the page. */
function pageModule() {
  const packed = readFileSync(join(PAGE, "check.html"), "utf8").match(/id="module">([^<]*)</)[1];
  return gunzipSync(Buffer.from(packed.replace(/\s/g, ""), "base64"));
}

/** The caller of a module. In newer versions of Node a 64-bit memory grows by a BigInt of pages. */
class AnyChecker extends Checker {
  grow(pages) {
    try {
      super.grow(pages);
    } catch (error) {
      if (!(error instanceof TypeError)) throw error;
      this.exports.memory.grow(BigInt(pages));
    }
  }
}

const newChecker = (bytes) => new AnyChecker(new WebAssembly.Instance(new WebAssembly.Module(bytes)));

const digits = (byte) => byte.toString(16).padStart(2, "0");

/** Cells as `check --cells` prints them: a line for each row, and four digits for each cell. */
function cellLines({ columns, lines, glyphs, attributes }) {
  const row = (y) => Array.from({ length: columns }, (_, x) => y * columns + x)
    .map((cell) => digits(glyphs[cell]) + digits(attributes[cell])).join("");
  return Array.from({ length: lines }, (_, y) => row(y) + "\n").join("");
}

/** A fault as the program's reports end with it. */
function faultLine(checker, { number, offset, row, column }) {
  const cell = row > 0 ? ` (row ${row}, column ${column})` : "";
  return `at ${offset}: ${checker.faultText(number).text}${cell}\n`;
}

/** A row as text: the members of the table's, in the order of their names, and its lines of why. */
const rowText = (members, lines) => JSON.stringify([Object.entries(members).sort(), [...lines].sort()]);

const nameOf = (command, flags) => [command, ...flags].join(" ");

/** A file that is made, if one is, and what is said of it. */
const made = (isMade, bytes, text) =>
  `${isMade ? Buffer.from(bytes).toString("latin1") : "nothing"}\n${withoutFlags(text)}`;

/** What a module says of a file, by the program's commands. */
function saidBy(checker, file) {
  checker.open(file);
  const said = { why: checker.why().text, sauce: checker.record().text };
  for (const [known, flags] of CLASSES) {
    const told = checker.check(known);
    said[nameOf("check", flags)] = told.answer === "pass" ? cellLines(told) : faultLine(checker, told.fault);
  }
  const { row } = checker.row();
  said.row = rowText(jsonRow(row), whyLines(row));
  const needs = checker.needs();
  const names = PART_NAMES.filter((_, part) => (needs.parts >> part) & 1).join(" ") || "nothing";
  said.needs = needs.answer === "pass" ? `needs: ${names}\n` : faultLine(checker, needs.fault);
  const put = (name, { answer, changes, bytes }) => {
    said[name] = made(answer === "pass", bytes, changes);
  };
  for (const [numbers, flags] of MENDS) put(nameOf("mend", flags), checker.mend(...numbers));
  put("redraw", checker.redraw());
  return said;
}

const run = (program, words) => spawnSync(program, words, { maxBuffer: 1 << 28 });

/** The same by the program. */
function saidByProgram(program, path) {
  const printed = (...words) => run(program, [...words, path]).stdout.toString();
  const said = { why: withoutFix(printed("why")), sauce: printed("sauce") };
  for (const [, flags] of CLASSES) {
    const report = printed("check", ...flags, "--cells");
    said[nameOf("check", flags)] = report.split("\ncells:\n")[1] ?? report.split("verdict: refused\n")[1];
  }
  const { file: _, fix: __, ...members } = JSON.parse(printed("table", "--json"));
  said.row = rowText(members, toldLines(said.why));
  said.needs = /(?:needs: |at \d+: F).*\n$/.exec(printed("needs"))[0];
  for (const words of [...MENDS.map(([, flags]) => ["mend", ...flags]), ["redraw"]]) {
    const { status, stdout, stderr } = run(program, [...words, path]);
    said[words.join(" ")] = made(status === 0, stdout, stderr.toString());
  }
  return said;
}

const drawingsIn = (folder) => readdirSync(folder).filter((name) => name.endsWith(".ans"))
  .map((name) => join(folder, name));

/** The modules that are tried, by name, and the drawings that are named. */
function given(words) {
  const modules = { "the module": pageModule() };
  if (words[0] !== "--before") return { modules, named: words };
  return { modules: { ...modules, "the module before": readFileSync(words[1]) }, named: words.slice(2) };
}

function main([program, ...words]) {
  const { modules, named } = given(words);
  const folders = [join(TOP, "conformance", "files"), join(TOP, "crates", "anscheck", "data"), ...named];
  const drawings = folders.flatMap((path) => (statSync(path).isDirectory() ? drawingsIn(path) : [path]));
  const checkers = Object.entries(modules).map(([name, bytes]) => [name, newChecker(bytes)]);
  let differ = 0;
  for (const path of drawings) {
    const wanted = saidByProgram(program, path);
    const file = new Uint8Array(readFileSync(path));
    const found = checkers.flatMap(([name, checker]) => {
      const said = saidBy(checker, file);
      return Object.keys(wanted).filter((command) => said[command] !== wanted[command])
        .map((command) => `${name}, ${command}`);
    });
    if (found.length) console.log(`${path}: ${found.join("; ")}`);
    differ += found.length > 0;
  }
  console.log(`${drawings.length} drawings, ${differ} differ`);
  process.exitCode = differ > 0 ? 1 : 0;
}

main(process.argv.slice(2));
