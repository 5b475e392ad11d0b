/** A file, or a module's bytes. A `Buffer` of Node is a `Uint8Array`. */
export type Bytes = Uint8Array | ArrayBuffer;

/**
 * A part of the start: what the screen, the cursor, the saved cursor, the colours and wrap are when the drawing begins.
 */
export type Part = "screen" | "cursor" | "saved" | "colours" | "wrap";

/** What is known of the start: nothing, all of it, or these parts. What is known is as on a cleared screen. */
export type Start = "any" | "cleared" | readonly Part[];

/** Why a file is refused. */
export interface Fault {
  /** 1 to 25, without 18: 21 for the fault F21. */
  number: number;
  /** In bytes from the file's start, the first being 0. */
  offset: number;
  /** The row of the cell of F25, counted from 1; otherwise null. */
  row: number | null;
  /** The column of that cell, counted from 1; otherwise null. */
  column: number | null;
  /** The fault's number and name, such as "F21 scrolls". */
  text: string;
}

/** The file has more than 16,777,216 bytes. */
export interface TooLong {
  verdict: "too long";
}

/** The file is refused, with its first fault, or its last if no token has one. */
export interface Refused {
  verdict: "refused";
  fault: Fault;
}

/** The picture that the file shows from each of the starts. */
export interface Picture {
  verdict: "pass";
  /** Columns, 1 to 1024. */
  width: number;
  /** Rows, 1 to 8192. */
  lines: number;
  /** For each cell, row by row, its byte of code page 437. */
  glyphs: Uint8Array;
  /** For each cell, row by row: bits 0 to 3 foreground, 4 to 6 background, bit 7 blink or bright background. */
  attributes: Uint8Array;
}

/** It passes from the cleared start, and exactly if each of these parts is known. */
export interface Needs {
  verdict: "pass";
  needs: Part[];
}

/** A way in which players differ. docs/PLAYERS.md explains each. */
export type Kind =
  | "wrap-at-once" | "line-ends" | "home-on-clear" | "clear-in-colour" | "save-place-only" | "dos-colours"
  | "tab-prints" | "line-erased" | "wrap-off" | "stops-at-edge" | "page-controls" | "terminal-controls"
  | "own-colours";

/** A position on the screen, counted from 1. */
export interface Place {
  row: number;
  column: number;
}

/** That many bytes of the file, from this offset on. */
export interface Piece {
  start: number;
  length: number;
}

/** What the last 128 bytes of a file say, if they are a record. Texts are shown by characters of code page 437. */
export interface RecordFields {
  title: string;
  author: string;
  group: string;
  /** Mostly eight digits: year, month and day. */
  date: string;
  /** The stated columns; a width of 0 is given as 80. */
  width: number;
  /** The stated lines, or 0 if none are. */
  lines: number;
  /** The byte of the flags (TFlags). */
  flags: number;
  /** Whether bit 7 of an attribute is a bright background, and not blink: the flag non-blink. */
  ice: boolean;
  /** Letters of 8 or of 9 pixels; null if the flags do not say. */
  spacing: 8 | 9 | null;
  /** Pixels to be stretched, or square ones; null if the flags do not say. */
  aspect: "stretch" | "square" | null;
  font: string;
}

/** What is known of a file. Whatever is absent is null. */
export interface Row {
  /** "pass": it needs nothing. "cleared": it passes on a cleared screen. "refused": it does not pass even there. */
  verdict: "pass" | "cleared" | "refused";
  /** The parts of the start that it relies on, if it is not refused. */
  needs: Part[] | null;
  /** The ways in which players differ that it runs into, if it is not refused; none: `players: all`. */
  players: Kind[] | null;
  /**
   * If there are none but own colours, the parts that have to be known for it to look the same on all players; with own
   * colours, on all whose own white and black are those that 37 and 40 set.
   */
  needsOnAllPlayers: Part[] | null;
  /** "same" if its picture is shown to be the same on every taller screen. */
  tallerScreens: "same" | null;
  /** Why it is refused; or, if it relies on something, the fault that it has if nothing is known of the start. */
  fault: Fault | null;
  /** The offending bytes; none for F1 to F8 and F25. */
  bytes: Piece | null;
  /**
   * Where the cursor is before the fault: from the cleared start if it is refused, otherwise if it began at the top
   * left.
   */
  low: Place | null;
  /** The same if it is refused; otherwise where the cursor is if it began at the bottom right. */
  high: Place | null;
  /** What the offending bytes, or those after the end mark, are recognised as: "ANSI music" and the like. */
  known: string | null;
  /** For F5 and F19 to F21 the smallest number of lines with which the file passes from the cleared start. */
  lines: number | null;
  /** Whether it passes, relies on something, and `mend` without flags makes it pass from every start. */
  mends: boolean;
  /** How many bytes the content has, if the record and the layout are accepted. */
  content: number | null;
  /** The comments, if the record and the layout are accepted. */
  comments: string[];
  /** The notes on the record, 3 for N3, if the record and the layout are accepted. */
  notes: number[];
  /** The record, accepted or not. */
  record: RecordFields | null;
}

/** A verdict, and the lines that the program prints, each ended by a line feed. */
export interface Text {
  verdict: "pass" | "refused";
  text: string;
}

/** A file that was made, and what was changed, a line for each kind of change. */
export interface Made {
  verdict: "pass";
  file: Uint8Array;
  text: string;
}

/** No file was made, and why. */
export interface NotMade {
  verdict: "refused";
  text: string;
}

/** What may be changed to fix a file besides what is changed without being asked: the flags of `anscheck mend`. */
export interface MendOptions {
  /** Remove refused sequences, such as screen modes, and what draws nothing at the very end, as little as must go. */
  takeOut?: boolean;
  /** Turn line feeds into CR LF, if the drawing has no CR. */
  crlf?: boolean;
  /** Remove the line ends after full rows, if each full row has one. */
  joinRows?: boolean;
  /** With `crlf` or `joinRows`: if only some need it. */
  mixed?: boolean;
  /** Set the smallest number of lines that works, if the record has too few or none. */
  leastLines?: boolean;
  /** Add 37 and 40 after a 0 that something is printed in. */
  nameColours?: boolean;
  /** Set the flag for bright backgrounds. */
  ice?: boolean;
  /** Repair the comment count, and remove an older record. */
  record?: boolean;
  /** Add a record for that many columns, if there is none: 1 to 1024. */
  addRecord?: number;
  /** Set the record's width, in columns: 1 to 1024. */
  columns?: number;
  /** Set that many lines, if the record has too few or none: 1 to 8192. */
  lines?: number;
}

/**
 * A checker. A file that is given is not changed; answers stay as they are when the next file is checked. For anything
 * but a file, a start or options each call throws a `TypeError`, and for a number out of bounds a `RangeError`.
 */
export interface Checker {
  /** The picture that a file shows from every start of a class ("any" if none is named), or why there is none. */
  check(file: Bytes, start?: Start): Picture | Refused | TooLong;
  /** The parts of the start that a file relies on, or why it does not pass even from the cleared start. */
  needs(file: Bytes): Needs | Refused | TooLong;
  /** What `anscheck why` and `anscheck table` say of a file, in numbers and words. */
  row(file: Bytes): Row | TooLong;
  /**
   * What `anscheck why` prints: where and why a file is refused, or what it relies on and how to fix it. The lines
   * `fix:` and `more:` of a refused file are left out.
   */
  why(file: Bytes): Text | TooLong;
  /** What `anscheck sauce` prints: what a file's record says, or why it is refused. */
  record(file: Bytes): Text | TooLong;
  /** A file fixed as `anscheck mend` does it, so that it passes from every start. */
  mend(file: Bytes, options?: MendOptions): Made | NotMade | TooLong;
  /**
   * The picture from the cleared start written again from scratch, as `anscheck redraw` does it, so that it shows from
   * every start.
   */
  redraw(file: Bytes): Made | NotMade | TooLong;
  /** The version of the checker, such as "0.2.0". */
  version(): string;
}

/**
 * Makes a checker, of the bytes of `anscheck.wasm` or of the `WebAssembly.Module` that was compiled of them. If none
 * are given, they are read from beside the package's sources, in browsers by `fetch`.
 */
export function load(module?: Bytes | object): Promise<Checker>;
