// The table of a folder: it sorts by its headings, shows what the filter lets through, and is saved as CSV.

import { RovingStop } from "./roving.js";

const COLUMNS = [
  { key: "name", heading: "Name" },
  { key: "verdict", heading: "Verdict" },
  { key: "needs", heading: "Needs" },
  { key: "players", heading: "Players" },
  { key: "fault", heading: "Fault" },
  { key: "at", heading: "At byte" },
  { key: "notes", heading: "Notes" },
  { key: "title", heading: "Title" },
  { key: "author", heading: "Author" },
  { key: "size", heading: "Size" },
];

/**
 * How long rows wait for others, in milliseconds: the table is laid out again for all of them at once. If that takes
 * long they wait that many times as long as it took, so that most of the time is left for the checker.
 */
const BATCH_PERIOD = 250;
const WAIT_FOR_LAYOUT = 8;

const natural = new Intl.Collator("en", { numeric: true });

/** The rows in the order of a column; those that are empty there come last. */
function sorted(rows, key, isDescending) {
  const order = (one, other) => {
    if (one[key] === "" || other[key] === "") return (one[key] === "") - (other[key] === "");
    const ascending = natural.compare(one[key], other[key]);
    return isDescending ? -ascending : ascending;
  };
  return [...rows].sort((one, other) => order(one, other) || natural.compare(one.name, other.name));
}

/** A value in quotes if CSV needs them. A spreadsheet would calculate what begins with = + - @: a ' goes before. */
function csvValue(value) {
  const plain = /^[=+\-@\t\r]/.test(value) ? `'${value}` : value;
  return /[",\r\n]/.test(plain) ? `"${plain.replaceAll('"', '""')}"` : plain;
}

function csvOf(rows) {
  const lines = [COLUMNS.map(({ key }) => key), ...rows.map((row) => COLUMNS.map(({ key }) => row[key]))];
  return lines.map((line) => `${line.map(csvValue).join(",")}\r\n`).join("");
}

class DrawingTable {
  /**
   * `lets` says whether the filter lets a row through, `onChoose` gets the drawing of a row, and `onChange` is called
   * when other rows are shown or the same in another order.
   */
  constructor(table, { lets, onChoose, onChange }) {
    const [body] = table.tBodies;
    this.table = table;
    this.body = body;
    this.lets = lets;
    this.onChoose = onChoose;
    this.onChange = onChange;
    this.stop = new RovingStop(body);
    this.headings = COLUMNS.map((column) => this.makeHeading(column));
    table.tHead.rows[0].replaceChildren(...this.headings);
    this.clear();
  }

  makeHeading({ key, heading }) {
    const cell = document.createElement("th");
    const button = document.createElement("button");
    cell.scope = "col";
    cell.dataset.key = key;
    button.type = "button";
    button.textContent = heading;
    button.addEventListener("click", () => this.sortBy(key));
    cell.append(button);
    return cell;
  }

  clear() {
    clearTimeout(this.timer);
    this.timer = null;
    this.period = BATCH_PERIOD;
    this.rows = [];
    this.waiting = [];
    this.current = null;
    this.key = "";
    this.isDescending = false;
    this.showOrder();
    this.body.replaceChildren();
  }

  /** Adds a row, which is soon in the table; `drawing` is handed back when it is chosen. */
  add(values, drawing) {
    const row = { ...values, drawing };
    this.rows.push(row);
    this.waiting.push(row);
    this.timer ??= setTimeout(() => this.appendWaiting(), this.period);
  }

  appendWaiting() {
    clearTimeout(this.timer);
    this.timer = null;
    const began = performance.now();
    this.body.append(this.elementsOf(this.waiting.splice(0)));
    this.stop.keep();
    this.onChange();
    const isLaidOut = this.body.offsetHeight > 0;
    if (isLaidOut) this.period = Math.max(BATCH_PERIOD, WAIT_FOR_LAYOUT * (performance.now() - began));
  }

  /** What the table shows of these rows. */
  elementsOf(rows) {
    const fragment = document.createDocumentFragment();
    for (const row of rows) if (this.lets(row)) fragment.append(row.element ??= this.makeElement(row));
    return fragment;
  }

  makeElement(row) {
    const element = document.createElement("tr");
    for (const { key } of COLUMNS) {
      const cell = document.createElement(key === "name" ? "th" : "td");
      if (key === "name") cell.scope = "row";
      cell.dataset.key = key;
      cell.append(key === "name" ? this.makeChoice(row) : row[key]);
      element.append(cell);
    }
    element.dataset.verdict = row.verdict;
    return element;
  }

  makeChoice(row) {
    const button = document.createElement("button");
    button.type = "button";
    button.dir = "auto";
    button.tabIndex = -1;
    button.textContent = row.name;
    button.addEventListener("click", () => this.choose(row));
    return button;
  }

  choose(row) {
    this.current?.element.removeAttribute("aria-current");
    this.current = row;
    row.element.setAttribute("aria-current", "true");
    this.stop.moveTo(row.element.querySelector("button"));
    this.reveal(row.element);
    this.onChoose(row.drawing);
  }

  /** Scrolls only the table, so that a row is between the headings and the lower edge. */
  reveal({ offsetTop, offsetHeight }) {
    const view = this.table.parentElement;
    const least = offsetTop + offsetHeight - view.clientHeight;
    const most = offsetTop - this.table.tHead.offsetHeight;
    view.scrollTop = Math.min(most, Math.max(least, view.scrollTop));
  }

  /** The row after the chosen one (1) or before it (-1), of those that are shown; or nothing. */
  neighbour(step) {
    let at = this.rows.indexOf(this.current) + step;
    while (this.rows[at] && !this.isShown(this.rows[at])) at += step;
    return this.rows[at];
  }

  /** How many rows are shown, and the number of the chosen one among them, from 1 on, or 0. */
  place() {
    const shown = this.rows.filter((row) => this.isShown(row));
    return { number: shown.indexOf(this.current) + 1, count: shown.length };
  }

  isShown(row) {
    return row.element?.parentNode === this.body;
  }

  sortBy(key) {
    this.isDescending = this.key === key && !this.isDescending;
    this.key = key;
    this.arrange();
  }

  /** All rows have come: they are put in order, if one was asked for. */
  end() {
    if (this.key) this.arrange();
    else this.appendWaiting();
  }

  /** All rows that have come, in their order. What has the focus keeps it. */
  arrange() {
    this.waiting = [];
    if (this.key) this.rows = sorted(this.rows, this.key, this.isDescending);
    const focused = document.activeElement;
    this.body.replaceChildren(this.elementsOf(this.rows));
    if (this.body.contains(focused)) focused.focus({ preventScroll: true });
    this.stop.keep();
    this.showOrder();
    this.onChange();
  }

  showOrder() {
    for (const heading of this.headings) {
      const isSorted = heading.dataset.key === this.key;
      if (isSorted) heading.setAttribute("aria-sort", this.isDescending ? "descending" : "ascending");
      else heading.removeAttribute("aria-sort");
    }
  }
}

export { DrawingTable, csvOf };
