// Compiled by the tests and not run: what the types let a caller write, and what they forbid.
import { load, type Checker, type Fault, type Kind, type Part, type Picture, type Row } from "../index.js";

export async function uses(file: Uint8Array, buffer: ArrayBuffer): Promise<string> {
  const checker: Checker = await load();
  await load(file);
  await load(buffer);

  const checked = checker.check(file, ["screen", "cursor"]);
  if (checked.verdict === "pass") return rowsOf(checked);
  if (checked.verdict === "refused") return placeOf(checked.fault);

  const needed = checker.needs(buffer);
  const parts: Part[] = needed.verdict === "pass" ? needed.needs : [];

  const mended = checker.mend(file, { takeOut: true, addRecord: 80 });
  const bytes: Uint8Array = mended.verdict === "pass" ? mended.file : file;
  checker.mend(file, {});
  checker.mend(file);
  const redrawn = checker.redraw(bytes);
  const row = checker.row(file);
  if (row.verdict !== "too long") return authorOf(row);
  const why = checker.why(file);
  const record = checker.record(file);
  const texts = [why, record, redrawn].map((told) => (told.verdict === "too long" ? "" : told.text));
  return [checker.version(), ...parts, ...texts].join("\n");
}

function rowsOf({ width, lines, glyphs, attributes }: Picture): string {
  return `${width} ${lines} ${glyphs[0]} ${attributes[0]}`;
}

function authorOf({ verdict, needs, needsOnAllPlayers, tallerScreens, players, low, record, notes }: Row): string {
  const parts: Part[] = (verdict === "cleared" ? needs : needsOnAllPlayers) ?? [];
  const taller: string = tallerScreens ?? "not shown";
  const kinds: Kind[] = players ?? [];
  const column: number = low?.column ?? 0;
  const ice: boolean = record?.ice ?? false;
  return [record?.author ?? "", ...parts, ...kinds, taller, column.toFixed(), ice, ...notes].join(" ");
}

function placeOf({ number, offset, row, column, text }: Fault): string {
  const cell: string = row === null || column === null ? "" : `${row - 1} ${column - 1}`;
  return `${number.toFixed()} ${offset.toFixed()} ${text} ${cell}`;
}

export function wrong(checker: Checker, file: Uint8Array): void {
  // @ts-expect-error: a string is no file
  checker.check("drawing.ans");
  // @ts-expect-error: there is no such start
  checker.check(file, "clear");
  // @ts-expect-error: there is no such part
  checker.check(file, ["colors"]);
  // @ts-expect-error: there is no such option
  checker.mend(file, { takeout: true });
  // @ts-expect-error: a file that is too long has no picture
  checker.check(file).glyphs;
  // @ts-expect-error: an option of another name
  checker.mend(file, { width: 80 });
  // @ts-expect-error: a file that is too long has no row
  checker.row(file).record;
  // @ts-expect-error: a promise is no checker
  load().version();
  // @ts-expect-error: a name is no module
  load("anscheck.wasm");
}
