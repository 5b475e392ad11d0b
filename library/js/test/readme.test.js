// Each example of README.md, run in a folder beside a copy of the package, prints what is below it.
import assert from "node:assert/strict";
import { execFileSync } from "node:child_process";
import { copyFileSync, cpSync, mkdtempSync, readFileSync, rmSync, writeFileSync } from "node:fs";
import { tmpdir } from "node:os";
import { join } from "node:path";
import { test } from "node:test";
import { fileURLToPath } from "node:url";

const PACKAGE = fileURLToPath(new URL("..", import.meta.url));
const DATA = fileURLToPath(new URL("../../../crates/anscheck/data/", import.meta.url));
const FILES = ["index.js", "calls.js", "characters.js", "numbers.js", "row.js", "anscheck.wasm", "package.json"];
const EXAMPLE = /^```js\n(.*?)^```\n\n```text\n(.*?)^```$/gms;

const readme = readFileSync(join(PACKAGE, "README.md"), "utf8");
const examples = [...readme.matchAll(EXAMPLE)].map(([, script, printed]) => ({ script, printed }));

test("README.md has four examples, and names the files that they need", () => {
  assert.equal(examples.length, 4);
  assert.equal(readme.split("```js\n").length - 1, 4);
  for (const name of FILES) assert.ok(readme.includes(`\`${name}\``), name);
});

for (const [number, { script, printed }] of examples.entries()) {
  test(`example ${number + 1} of README.md`, () => {
    const folder = mkdtempSync(join(tmpdir(), "anscheck-"));
    try {
      for (const name of FILES) cpSync(join(PACKAGE, name), join(folder, "anscheck", name));
      for (const name of ["harbour.ans", "rows.ans"]) copyFileSync(join(DATA, name), join(folder, name));
      writeFileSync(join(folder, "look.mjs"), script);
      assert.equal(execFileSync(process.execPath, ["look.mjs"], { cwd: folder, encoding: "utf8" }), printed);
    } finally {
      rmSync(folder, { recursive: true });
    }
  });
}
