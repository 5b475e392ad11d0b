// What the checker says of a drawing, for people who draw.

const linesOf = (text) => text.split("\n").slice(0, -1);

/** The position in the picture that a line of `why` names, or nothing. */
function placeOf(line, { fault, low, high }) {
  if (line.startsWith("from the top left: ") || line.startsWith("cursor: ")) return low;
  if (line.startsWith("from the bottom right: ")) return high;
  return fault?.row && /^(?:fault|because): at /.test(line) ? { row: fault.row, column: fault.column } : null;
}

/** All positions that are named, each once. */
function placesOf({ fault, low, high }) {
  const places = [fault?.row ? fault : null, low, high].filter(Boolean);
  const isFirst = ({ row, column }, index) => (
    places.findIndex((each) => each.row === row && each.column === column) === index);
  return places.filter(isFirst).map(({ row, column }) => ({ row, column }));
}

const NEEDS = {
  screen: "a blank screen",
  cursor: "the cursor at the top left",
  saved: "the saved cursor at the top left",
  colours: "white on black",
  wrap: "wrap turned on",
};

/** The players that may show a drawing differently, by the way in which they differ from others. */
const PLAYERS = {
  "wrap-at-once": "that wait at the right edge, as modern terminals do",
  "line-ends": "that treat a bare line feed or return differently",
  "home-on-clear": "that clear the screen and leave the cursor where it is",
  "clear-in-colour": "that always clear in black",
  "save-place-only": "that save more than the cursor's position, or nothing",
  "dos-colours": "that read some colour codes differently from DOS",
  "tab-prints": "that move at a tab and print no blanks",
  "line-erased": "that erase no line",
  "wrap-off": "that always wrap",
  "stops-at-edge": "that have more lines, or go on past the right edge",
  "page-controls": "that draw or obey control characters differently",
  "terminal-controls": "that, like modern terminals, draw no control characters",
  "own-colours": "that have a white and a black of their own",
};

const FAILURES = {
  "too long": "It is longer than 16,777,216 bytes, and was not checked.",
  unread: "It cannot be read.",
  late: "There was no answer in time, so the check was ended. The checker was started again.",
  ended: "The check was ended.",
  stopped: "The checker stopped at this drawing without an answer. It was started again.",
};

const listed = (words) => words.length < 2 ? words.join("") : `${words.slice(0, -1).join(", ")} and ${words.at(-1)}`;

const found = (parts) => listed(parts.map((part) => NEEDS[part]));

/** A sentence for people who draw. */
function sentenceOf({ answer, row }) {
  if (FAILURES[answer]) return FAILURES[answer];
  if (answer === "refused") return `Refused at byte ${row.fault.offset.toLocaleString("en")}: ${row.fault.text}.`;
  if (row.verdict === "pass") return "Passes: it shows the same picture whatever was on the screen before.";
  return `Passes on a cleared screen: it relies on ${found(row.needs)}.`;
}

/** What there is to say of players, for people who draw: nothing if a drawing is refused. */
function playersSentenceOf({ answer, row }) {
  if (answer !== "pass") return "";
  const others = row.players.filter((kind) => kind !== "own-colours");
  const kinds = row.players.map((kind) => PLAYERS[kind]);
  if (others.length > 0) return `It may look different in players ${kinds.join("; or in those ")}.`;
  const needs = row.needsOnAllPlayers;
  const start = needs.length === 0 ? "whatever was on the screen before" : `if they start with ${found(needs)}`;
  if (kinds.length === 0) return `It looks the same in all players that differ only in the known ways, ${start}.`;
  return `In named colours it looks the same in all players that differ only in the known ways, ${start}; `
    + "a light theme shows its own black and white.";
}

const sizeOf = ({ width, lines }) => `${width} x ${lines}`;

/** What a row of the table says of a drawing, if there is an answer. */
function valuesOf({ verdict, needs, players, fault, notes, record }) {
  const isRefused = verdict === "refused";
  return {
    verdict,
    needs: isRefused ? "" : needs.join(" ") || "nothing",
    players: isRefused ? "" : players.join(" ") || "all",
    fault: isRefused ? fault.text : "",
    at: isRefused ? String(fault.offset) : "",
    notes: notes.map((number) => `N${number}`).join(" "),
    title: record?.title ?? "",
    author: record?.author ?? "",
    size: record ? sizeOf(record) : "",
  };
}

const NO_VALUES = { needs: "", players: "", at: "", notes: "", title: "", author: "", size: "" };

/** A row of the table, by its columns. */
function rowOf(name, { answer, row }) {
  if (!row) return { ...NO_VALUES, name, verdict: "no answer", fault: FAILURES[answer] };
  return { ...valuesOf(row), name };
}

export { FAILURES, linesOf, placeOf, placesOf, playersSentenceOf, rowOf, sentenceOf, sizeOf };
