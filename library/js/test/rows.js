// A row, and a text, beside what the program prints about the same file.

/** The members that are there. */
const present = (members) => Object.fromEntries(Object.entries(members).filter(([, value]) => value !== null));

/** A row as `anscheck table --json` writes it, without the name of the file and what fixes it. */
function jsonRow({ verdict, needs, players, needsOnAllPlayers, tallerScreens, fault, low, content, comments, notes,
  record }) {
  const { width, lines, ice, spacing, aspect, font, date, title, author, group } = record ?? {};
  const isRefused = verdict === "refused";
  const passing = { needs, players, needs_on_all_players: needsOnAllPlayers, taller_screens: tallerScreens };
  const refused = { fault: `F${fault?.number}`, at: fault?.offset, row: low?.row ?? null, column: low?.column ?? null };
  return present({
    verdict, ...(isRefused ? refused : passing),
    ...(content === null ? {} : { content, comments, notes: notes.map((number) => `N${number}`) }),
    ...(record ? { width, lines, ice, spacing, aspect, font, date, title, author, group } : {}),
  });
}

const VERDICTS = { pass: "pass", cleared: "pass on a cleared screen", refused: "refused" };

const wordsOr = (words, none) => words.join(" ") || none;

/** The lines of `why` about what a drawing relies on that passes. */
function passingLines({ needs, players, needsOnAllPlayers, tallerScreens }) {
  if (!needs) return [];
  const [some, all] = [needs, needsOnAllPlayers ?? needs].map((parts) => wordsOr(parts, "nothing"));
  return [
    `needs: ${some}`, `players: ${wordsOr(players, "all")}`, ...(all === some ? [] : [`needs on all players: ${all}`]),
    ...(tallerScreens ? [`taller screens: ${tallerScreens}`] : []),
  ];
}

/** The lines of `why` about the fault, without its bytes, and about the cursor before it. */
function faultLines({ verdict, fault, low, high }) {
  if (!fault) return [];
  const cell = fault.row ? ` (row ${fault.row}, column ${fault.column})` : "";
  const isRefused = verdict === "refused";
  const places = isRefused ? { cursor: low } : { "from the top left": low, "from the bottom right": high };
  const place = ([name, { row, column }]) => `${name}: row ${row}, column ${column}`;
  return [
    `${isRefused ? "fault" : "because"}: at ${fault.offset}, ${fault.text}${cell}`,
    ...Object.entries(present(places)).map(place),
  ];
}

/** The lines of `why` that a row has in numbers and words. */
function whyLines(row) {
  const { verdict, known, lines } = row;
  return [
    `verdict: ${VERDICTS[verdict]}`, ...passingLines(row), ...faultLines(row), ...(known ? [`is: ${known}`] : []),
    ...(lines ? [`lines: ${lines}`] : []),
  ];
}

const NAMES = "verdict|needs|players|needs on all players|taller screens|fault|because|is|lines";
const KEPT = new RegExp(`^(?:${NAMES}): |^(?:cursor|from the (?:top left|bottom right)): row `);

/**
 * A line without the bytes of a fault, without what comes after a number of lines, and without what a sequence does.
 */
const withoutMore = (line) => line.replace(/^(lines: \d+), but the rows look broken$/, "$1")
  .replace(/^((?:fault|because): at \d+, F[^:]*): .*$/, "$1")
  .replace(/^(is: a sequence of modern terminals): .*$/, "$1");

const isRefused = (text) => text.includes("verdict: refused\n");

/** A text of `why` without the commands: only the program has them, since they name the file. */
const withoutFix = (text) => text.replace(/^(?:fix|everywhere|more): .*\n/gm, "");

/** What mending says without the flags to try: only the program leaves out those that are no help. */
const withoutFlags = (text) => text.replace(/^(?:try:|see anscheck why for the place,) .*\n/gm, "");

/** Those lines of a text of `why`. A row says what is recognised only of a file that is refused. */
const toldLines = (text) => withoutFix(text).split("\n").filter((line) => KEPT.test(line)).map(withoutMore)
  .filter((line) => !line.startsWith("is: ") || isRefused(text));

export { jsonRow, toldLines, whyLines, withoutFix, withoutFlags };
