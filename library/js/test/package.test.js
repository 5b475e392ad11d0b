// The package by itself: its answers to the drawings of the corpus, wrong arguments, and memory.
import assert from "node:assert/strict";
import { spawnSync } from "node:child_process";
import { existsSync, readFileSync } from "node:fs";
import { test } from "node:test";
import { fileURLToPath } from "node:url";
import { runInNewContext } from "node:vm";
import { load } from "../index.js";
import { jsonRow, toldLines, whyLines, withoutFix, withoutFlags } from "./rows.js";

const CORPUS = new URL("../../../conformance/", import.meta.url);
const DATA = new URL("../../../crates/anscheck/data/", import.meta.url);
const LONGEST_FILE = 16777216;

const checker = await load();
const drawing = (name) => readFileSync(new URL(`${name}.ans`, DATA));
const hi = drawing("hi");

/** The drawings of the corpus, with the starts that they are checked from. */
function drawings() {
  const rows = readFileSync(new URL("index.tsv", CORPUS), "utf8").trimEnd().split("\n").slice(1);
  return rows.map((row) => row.split("\t")).map(([name, , start]) => ({ name, start: startOf(start) }));
}

const startOf = (words) => (words.startsWith("known ") ? words.split(" ").slice(1) : words);

const digits = (byte) => byte.toString(16).padStart(2, "0");

/** An answer of `check` as the corpus stores it. */
function stored({ verdict, width, lines, glyphs, attributes, fault }) {
  if (verdict === "refused") {
    const cell = fault.row === null ? "" : ` (row ${fault.row}, column ${fault.column})`;
    return `at ${fault.offset}: ${fault.text}${cell}\n`;
  }
  const cell = (row, column) => digits(glyphs[row * width + column]) + digits(attributes[row * width + column]);
  const row = (each) => Array.from({ length: width }, (_, column) => cell(each, column)).join("");
  return Array.from({ length: lines }, (_, each) => `${row(each)}\n`).join("");
}

function expected(name) {
  const cells = new URL(`files/${name}.cells`, CORPUS);
  return readFileSync(existsSync(cells) ? cells : new URL(`files/${name}.fault`, CORPUS), "utf8");
}

test("each drawing of the corpus has its picture or its fault", () => {
  const all = drawings();
  assert.ok(all.length > 100);
  for (const { name, start } of all) {
    const file = readFileSync(new URL(`files/${name}.ans`, CORPUS));
    assert.equal(stored(checker.check(file, start)), expected(name), name);
  }
});

test("a drawing of the corpus passes exactly if its needs are known", () => {
  for (const { name } of drawings()) {
    const file = readFileSync(new URL(`files/${name}.ans`, CORPUS));
    const { verdict, needs, fault } = checker.needs(file);
    const known = checker.check(file, verdict === "pass" ? needs : "cleared");
    assert.equal(known.verdict, verdict, name);
    assert.deepEqual(known.fault, fault, name);
    for (const part of needs ?? []) {
      assert.equal(checker.check(file, needs.filter((each) => each !== part)).verdict, "refused", name);
    }
  }
});

test("the row of each drawing agrees with the other answers", () => {
  for (const { name } of drawings()) {
    const file = readFileSync(new URL(`files/${name}.ans`, CORPUS));
    const row = checker.row(file);
    const { verdict, fault } = checker.check(file, "cleared");
    const passes = checker.check(file).verdict === "pass" ? "pass" : "cleared";
    assert.equal(row.verdict, verdict === "pass" ? passes : verdict, name);
    if (verdict === "refused") assert.deepEqual(row.fault, fault, name);
    else assert.deepEqual(row.needs, checker.needs(file).needs, name);
    if (row.needs?.length > 0) assert.deepEqual(row.fault, checker.check(file).fault, name);
    assert.equal(row.fault === null, row.needs?.length === 0, name);
    assert.equal(row.needs === null, verdict === "refused", name);
    const isSaid = row.players?.every((kind) => kind === "own-colours") ?? false;
    assert.equal(row.needsOnAllPlayers !== null, isSaid, name);
    assert.equal(checker.record(file).verdict === "pass" && row.content === null, false, name);
  }
});

test("a row has what there is of the record, whether it is accepted or not", () => {
  const { record, notes, content } = checker.row(hi);
  assert.deepEqual([record.width, record.lines, content, notes], [2, 1, 2, []]);
  const odd = Uint8Array.from(hi);
  const at = odd.length - 128;
  odd.set([0x30, 0x31], at + 5);
  odd.set([0x41, 0x01, 0x00, 0xb0, 0x20, 0x00], at + 7);
  odd[at + 105] = 0x0b;
  const refused = checker.row(odd);
  assert.deepEqual([refused.verdict, refused.fault.number, refused.content, refused.notes], ["refused", 2, null, []]);
  assert.deepEqual(refused.record, {
    ...record, title: "A☺ ░", flags: 0x0b, ice: true, spacing: 8, aspect: "stretch",
  });
  assert.equal(checker.row(new Uint8Array(300)).record, null);
});

test("answers are plain objects", () => {
  assert.deepEqual(checker.check(hi, "cleared"), {
    verdict: "pass", width: 2, lines: 1, glyphs: Uint8Array.of(0x48, 0x69), attributes: Uint8Array.of(7, 7),
  });
  assert.deepEqual(checker.check(hi), {
    verdict: "refused",
    fault: { number: 22, offset: 0, row: null, column: null, text: "F22 print at an unknown place" },
  });
  assert.deepEqual(checker.needs(hi), { verdict: "pass", needs: ["cursor", "colours"] });
  const text = "verdict: refused\nat 0: F1 no SAUCE record\n";
  assert.deepEqual(checker.record(new Uint8Array(0)), { verdict: "refused", text });
  assert.deepEqual(checker.row(hi), {
    verdict: "cleared", needs: ["cursor", "colours"], players: ["own-colours"],
    needsOnAllPlayers: ["cursor", "colours"], tallerScreens: "same",
    fault: { number: 22, offset: 0, row: null, column: null, text: "F22 print at an unknown place" },
    bytes: { start: 0, length: 1 }, low: { row: 1, column: 1 }, high: { row: 2, column: 2 },
    known: null, lines: null, mends: true, content: 2, comments: [], notes: [], record: checker.row(hi).record,
  });
  assert.equal(checker.version(), "0.2.0");
});

test("a file is a Uint8Array or an ArrayBuffer, from anywhere, and stays as it is", () => {
  const before = Uint8Array.from(hi);
  const wanted = checker.check(hi, "cleared");
  const within = new Uint8Array([1, 2, 3, ...hi, 4]).subarray(3, 3 + hi.length);
  const foreign = runInNewContext("Uint8Array.from(bytes)", { bytes: [...hi] });
  for (const file of [before, before.buffer, within, foreign]) assert.deepEqual(checker.check(file, "cleared"), wanted);
  checker.mend(before);
  assert.deepEqual(before, Uint8Array.from(hi));
});

test("answers stay when the next file is checked", () => {
  const first = checker.check(hi, "cleared");
  const mended = checker.mend(hi);
  const copy = structuredClone([first, mended]);
  checker.redraw(drawing("rows"));
  checker.mend(drawing("harbour"));
  assert.deepEqual([first, mended], copy);
});

test("what is fixed or redrawn needs nothing and has the same picture", () => {
  const { glyphs, attributes } = checker.check(drawing("harbour"), "cleared");
  for (const made of [checker.mend(drawing("harbour")), checker.redraw(drawing("harbour"))]) {
    assert.equal(made.verdict, "pass");
    assert.deepEqual(checker.needs(made.file).needs, []);
    const again = checker.check(made.file);
    assert.deepEqual([again.glyphs, again.attributes], [glyphs, attributes]);
  }
});

test("each option of mend does what it says", () => {
  const rows = drawing("rows");
  assert.equal(checker.mend(rows).verdict, "refused");
  assert.match(checker.mend(rows, { joinRows: true }).text, /^removed 5 line ends after full rows, first at 84\n/);
  assert.equal(checker.check(checker.mend(rows, { lines: 12 }).file).lines, 12);
  const bare = new TextEncoder().encode("one\ntwo\x1b[?25l\n");
  const whole = checker.mend(bare, { addRecord: 80, crlf: true, takeOut: true });
  assert.equal(checker.check(whole.file).width, 80);
  assert.equal(new TextDecoder().decode(whole.file).includes("one\r\ntwo\r\n"), true);
  assert.equal(checker.mend(bare, { addRecord: 80, crlf: true }).verdict, "refused");
  assert.equal(checker.mend(drawing("rows"), { leastLines: undefined, lines: undefined }).verdict, "refused");
});

test("a file that is too long has an answer of its own, and the longest one has others", () => {
  const long = new Uint8Array(LONGEST_FILE + 1);
  const asked = [checker.check(long), checker.needs(long), checker.why(long), checker.record(long), checker.mend(long),
    checker.redraw(long), checker.row(long)];
  for (const answer of asked) assert.deepEqual(answer, { verdict: "too long" });
  assert.equal(checker.record(long.subarray(1)).text, `verdict: refused\nat ${LONGEST_FILE}: F1 no SAUCE record\n`);
});

test("wrong arguments throw an error, and nothing else changes", () => {
  const types = [
    () => checker.check("hi.ans"), () => checker.check(), () => checker.why([72, 105]), () => checker.needs(null),
    () => checker.record(new Uint16Array(4)), () => checker.redraw(new DataView(new ArrayBuffer(4))),
    () => checker.row("hi.ans"),
    () => checker.check(hi, "clear"), () => checker.check(hi, 31), () => checker.check(hi, null),
    () => checker.check(hi, ["colors"]), () => checker.check(hi, ["toString"]), () => checker.check(hi, [0]),
    () => checker.mend(hi, null), () => checker.mend(hi, 15), () => checker.mend(hi, { takeout: true }),
    () => checker.mend(hi, { takeOut: 1 }), () => checker.mend(hi, { addRecord: "80" }),
    () => checker.mend(hi, { width: 80 }), () => checker.mend(hi, { lineEnds: true }),
  ];
  for (const call of types) assert.throws(call, TypeError, String(call));
  for (const addRecord of [0, -1, 1025, 80.5, NaN]) assert.throws(() => checker.mend(hi, { addRecord }), RangeError);
  for (const lines of [0, 8193, Infinity]) assert.throws(() => checker.mend(hi, { lines }), RangeError);
  assert.equal(checker.check(hi, "cleared").verdict, "pass");
});

test("memory is taken once, and used again", async () => {
  const { grow } = WebAssembly.Memory.prototype;
  let times = 0;
  WebAssembly.Memory.prototype.grow = function (pages) { times++; return grow.call(this, pages); };
  try {
    const other = await load();
    const files = [Buffer.alloc(1 << 20, "x"), drawing("harbour"), hi];
    const options = { addRecord: 1024, leastLines: true };
    const ask = (file) => [other.mend(file, options), other.check(file), other.redraw(file)];
    files.forEach(ask);
    const taken = times;
    for (const file of [...files, ...files]) ask(file);
    assert.ok(taken > 0);
    assert.equal(times, taken);
  } finally {
    WebAssembly.Memory.prototype.grow = grow;
  }
});

test("after an error of the engine the checker goes on", async () => {
  const { instantiate, Instance } = WebAssembly;
  const fail = () => { throw new RangeError("no memory"); };
  const failing = (instance) => ({ exports: { ...instance.exports, ans_why_on: fail } });
  WebAssembly.instantiate = async (module) => failing(new Instance(module));
  const other = await load().finally(() => { WebAssembly.instantiate = instantiate; });
  assert.throws(() => other.why(hi), /no memory/);
  assert.deepEqual(other.why(hi), checker.why(hi));
});

test("the module may be given as bytes, or compiled", async () => {
  const bytes = readFileSync(new URL("../anscheck.wasm", import.meta.url));
  for (const module of [bytes, Uint8Array.from(bytes).buffer, new WebAssembly.Module(bytes)]) {
    assert.equal((await load(module)).version(), "0.2.0");
  }
  for (const wrong of ["anscheck.wasm", null, 3]) await assert.rejects(load(wrong), TypeError);
});

test("the types are those of the package", (context) => {
  if (spawnSync("tsc", ["--version"]).error) return context.skip("there is no tsc");
  const uses = fileURLToPath(new URL("../types/uses.ts", import.meta.url));
  const options = ["--noEmit", "--strict", "--target", "es2020", "--module", "node16", "--lib", "es2020"];
  const { status, stdout } = spawnSync("tsc", [...options, uses], { encoding: "utf8" });
  assert.equal(status, 0, stdout);
});

const PROGRAM = process.env.ANSCHECK;

const without = { skip: PROGRAM ? false : "ANSCHECK names no program" };

test("texts and files are the program's, to the byte", without, () => {
  const mends = {
    takeOut: true, crlf: true, joinRows: true, leastLines: true, nameColours: true, mixed: true, ice: true,
    record: true, addRecord: 80,
  };
  const flags = ["--take-out", "--crlf", "--join-rows", "--least-lines", "--name-colours", "--mixed", "--ice",
    "--record", "--add-record", "80"];
  const said = ({ verdict, text }) => [verdict === "pass" ? 0 : 1, text];
  const made = ({ verdict, text, file }) => [
    verdict === "pass" ? 0 : 1, withoutFlags(text), Buffer.from(file ?? "").toString("hex"),
  ];
  for (const { name } of drawings()) {
    const path = fileURLToPath(new URL(`files/${name}.ans`, CORPUS));
    const file = readFileSync(path);
    const run = (...words) => spawnSync(PROGRAM, [...words, path]);
    const printed = ({ status, stdout }) => [status, stdout.toString()];
    const written = ({ status, stdout, stderr }) => [
      status, withoutFlags(stderr.toString()), stdout.toString("hex"),
    ];
    const { status, stdout } = run("why");
    assert.deepEqual(said(checker.why(file)), [status, withoutFix(stdout.toString())], name);
    assert.deepEqual(said(checker.record(file)), printed(run("sauce")), name);
    assert.deepEqual(made(checker.mend(file)), written(run("mend")), name);
    assert.deepEqual(made(checker.mend(file, mends)), written(run("mend", ...flags)), name);
    assert.deepEqual(made(checker.redraw(file)), written(run("redraw")), name);
  }
  const version = spawnSync(PROGRAM, ["--version"], { encoding: "utf8" }).stdout;
  assert.ok(version.startsWith(`anscheck ${checker.version()} `), version);
});

test("rows say what the program's table and why say", without, () => {
  for (const { name } of drawings()) {
    const path = fileURLToPath(new URL(`files/${name}.ans`, CORPUS));
    const row = checker.row(readFileSync(path));
    const { file, fix, ...told } = JSON.parse(spawnSync(PROGRAM, ["table", "--json", path], { encoding: "utf8" }).stdout);
    assert.deepEqual(jsonRow(row), told, name);
    const { stdout } = spawnSync(PROGRAM, ["why", path], { encoding: "utf8" });
    assert.deepEqual(whyLines(row).sort(), toldLines(stdout).sort(), name);
  }
});
