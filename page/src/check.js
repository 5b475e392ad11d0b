// The page: what is chosen goes to the checker, and what it says is shown.

import { isKnown } from "./browser.js";
import { Checks } from "./checks.js";
import { element, itemOf } from "./elements.js";
import { TableFilter } from "./filter.js";
import { drawingsChosen, drawingsDropped } from "./folders.js";
import { Mending } from "./mending.js";
import { shownName } from "./names.js";
import { noteOn } from "./notes.js";
import { PictureView } from "./picture.js";
import { recordLines, recordNote } from "./record.js";
import { Redrawing } from "./redrawing.js";
import { saveAs } from "./saving.js";
import { Steps } from "./steps.js";
import { DrawingTable, csvOf } from "./table.js";
import { FAILURES, linesOf, placeOf, placesOf, playersSentenceOf, rowOf, sentenceOf, sizeOf } from "./why.js";

const TEXT_ROWS = 500;
const STATUS_PERIOD = 1000;

/** The text of each fault, as `anscheck help F20` prints it, by its number. */
const FAULT_TEXTS = JSON.parse(element("faults").textContent);

const packedModule = Uint8Array.from(atob(element("module").textContent), (character) => character.charCodeAt(0));
const lessMotion = matchMedia("(prefers-reduced-motion: reduce)");

const checks = new Checks(packedModule, element("worker").textContent, (version) => {
  element("version").textContent = `anscheck ${version}`;
});
const pictureView = new PictureView(element("view"), element("space"), element("canvas"));
const tableFilter = new TableFilter(element("filter"), () => drawingTable.arrange());
const drawingTable = new DrawingTable(element("table"), {
  lets: (row) => tableFilter.lets(row), onChoose: (drawing) => showDrawing(drawing), onChange: () => showCounts(),
});
const steps = new Steps(element("steps"), drawingTable, element("drawing"));

const mending = new Mending(
  element("mend-part"), (file, mends) => busyWith(checks.mend(file, mends)), (mended) => takeMended(mended));

const redrawing = new Redrawing(
  element("redraw-part"), element("save-redrawn"), (file) => busyWith(checks.redraw(file)));

/** The drawing that is looked at, what the checker says of it, and the fixed one if there is one. */
let looked = null;

/** What is shown now: the last choice of drawings, and the last drawing. Answers for earlier ones are ignored. */
let choice = 0;
let shown = 0;
let busy = 0;

/** The status; a name that it begins with has a direction of its own. */
function say(text, name = "") {
  const isolated = document.createElement("bdi");
  isolated.textContent = name;
  element("status").replaceChildren(...(name === "" ? [text] : [isolated, text]));
}

/** A line of `why`. If it names a position in the picture it is a button that goes there. */
function lineElement(line, place) {
  if (!place) return itemOf(line);
  const item = document.createElement("li");
  const button = document.createElement("button");
  button.type = "button";
  button.textContent = line;
  button.title = "Show this position in the picture";
  button.addEventListener("click", () => goToMark(place));
  item.append(button);
  return item;
}

function goToMark(place) {
  if (element("picture-part").hidden) return;
  element("view").scrollIntoView({ block: "nearest" });
  element("view").focus({ preventScroll: true });
  pictureView.goTo(place);
}

/** The program's own text on the fault: of a refusal, or of what a drawing has if its screen is not cleared. */
function showAdvice({ answer, row }) {
  const fault = row?.fault;
  element("advice").hidden = !fault;
  if (!fault) return;
  const which = answer === "pass" ? "its fault if the screen is not cleared" : "its fault";
  element("advice-heading").textContent = `What “anscheck help F${fault.number}” says of ${which}`;
  element("advice-text").textContent = FAULT_TEXTS[fault.number];
}

function showPicture(name, { answer, picture }, note, marks) {
  element("picture-part").hidden = !picture;
  pictureView.clear();
  if (!picture) return;
  element("picture-note").textContent = note;
  element("canvas").setAttribute("aria-label", `Picture of ${name}, ${note}`);
  element("blink-part").hidden = !picture.blinks || picture.brightBackgrounds;
  element("text-part").open = false;
  element("text").textContent = "";
  pictureView.show(picture, marks);
  if (answer === "refused" && marks.length > 0) pictureView.goTo(marks[0]);
}

function showAsItIs(name, result) {
  const { picture, row } = result;
  if (picture) showPicture(name, result, noteOn(picture, row), placesOf(row));
  else showPicture(name, result, "", []);
}

/** The picture of the drawing as it is, or fixed. */
function choosePicture(isMended) {
  element("show-before").setAttribute("aria-pressed", String(!isMended));
  element("show-after").setAttribute("aria-pressed", String(isMended));
  const { drawing, result, mended } = looked;
  if (isMended) showPicture(shownName(drawing.path), mended, `${sizeOf(mended.row.record)}, fixed.`, []);
  else showAsItIs(shownName(drawing.path), result);
  offerRedrawing(isMended);
}

/** What is looked at can be redrawn if it passes. */
function offerRedrawing(isMended) {
  const { drawing, result, mended } = looked;
  if (isMended) redrawing.open(drawing, new Blob([mended.bytes]), "Fixed");
  else if (result.answer === "pass") redrawing.open(drawing, drawing.file, "As it is");
  else redrawing.close();
}

/** There is a fixed drawing to look at, or there is none any more. */
function takeMended(mended) {
  if (!looked) return;
  const hadOne = looked.mended !== null && element("show-after").getAttribute("aria-pressed") === "true";
  looked.mended = mended;
  element("picture-choice").hidden = !mended;
  element("show-before").disabled = !looked.result.picture;
  if (mended && (hadOne || !looked.result.picture)) choosePicture(true);
  else if (hadOne) choosePicture(false);
}

function showText() {
  const { picture } = pictureView;
  if (!element("text-part").open || !picture) return;
  const isLong = picture.lines > TEXT_ROWS;
  element("text-note").textContent = isLong ? `The first ${TEXT_ROWS} of ${picture.lines} rows.` : "";
  element("text").textContent = pictureView.rowsAsText(TEXT_ROWS);
}

function showResult(drawing, result) {
  element("drawing").hidden = false;
  element("name").textContent = shownName(drawing.path);
  element("verdict").textContent = sentenceOf(result);
  element("verdict").dataset.answer = result.answer;
  element("players").textContent = playersSentenceOf(result);
  element("players").hidden = element("players").textContent === "";
  const lines = result.error ? [itemOf(result.error)]
    : linesOf(result.why).map((line) => lineElement(line, placeOf(line, result.row)));
  element("why").replaceChildren(...lines);
  element("record-note").textContent = recordNote(result);
  element("record").replaceChildren(...recordLines(result).map(itemOf));
  showAdvice(result);
  looked = { drawing, result, mended: null };
  steps.show();
  element("picture-choice").hidden = true;
  choosePicture(false);
  if (FAILURES[result.answer]) mending.close();
  else mending.open(drawing);
  element("name").focus({ preventScroll: true });
  element("name").scrollIntoView({ block: "start" });
  say(`: ${sentenceOf(result)}`, shownName(drawing.path));
}

async function busyWith(work) {
  busy++;
  element("stop").hidden = false;
  try {
    return await work;
  } finally {
    busy--;
    element("stop").hidden = busy === 0;
  }
}

async function showDrawing(drawing) {
  const mine = ++shown;
  say(" is being checked.", shownName(drawing.path));
  const result = await busyWith(checks.study(drawing.file, true));
  if (mine === shown) showResult(drawing, result);
}

function showCounts() {
  tableFilter.show();
  steps.show();
}

function counted(total) {
  const { all, cleared, refused, unanswered } = tableFilter.counts;
  const passing = `${all - cleared - refused - unanswered} pass, ${cleared} pass on a cleared screen`;
  const without = unanswered > 0 ? `, ${unanswered} without an answer` : "";
  return `${all} of ${total} checked: ${passing}, ${refused} refused${without}.`;
}

async function showFolder(drawings, others) {
  const mine = choice;
  element("drawings").hidden = false;
  element("drawing").hidden = true;
  element("drawings-heading").textContent = `${drawings.length} drawings`;
  const left = others > 0 ? ` ${others} other ${others === 1 ? "file was" : "files were"} left out.` : "";
  let told = Date.now();
  say(`${drawings.length} drawings are being checked.`);
  await busyWith(Promise.all(drawings.map(async (drawing) => {
    const result = await checks.study(drawing.file, false);
    if (mine !== choice) return;
    addRow(rowOf(shownName(drawing.path), result), drawing);
    if (Date.now() - told < STATUS_PERIOD) return;
    told = Date.now();
    say(counted(drawings.length));
  })));
  if (mine !== choice) return;
  drawingTable.end();
  say(counted(drawings.length) + left);
}

function addRow(row, drawing) {
  tableFilter.count(row);
  drawingTable.add(row, drawing);
}

function take({ drawings, others }) {
  checks.stop();
  choice++;
  shown++;
  drawingTable.clear();
  tableFilter.clear();
  element("drawings").hidden = true;
  if (drawings.length === 0) return say("There is no drawing here whose name ends in .ans.");
  return drawings.length === 1 ? showDrawing(drawings[0]) : showFolder(drawings, others);
}

function save() {
  saveAs(new Blob(["\ufeff", csvOf(drawingTable.rows)], { type: "text/csv" }), "drawings.csv");
}

function takeDrops() {
  const zone = element("choose");
  document.addEventListener("dragover", (event) => {
    event.preventDefault();
    zone.classList.add("over");
  });
  document.addEventListener("dragleave", (event) => {
    if (!event.relatedTarget) zone.classList.remove("over");
  });
  document.addEventListener("drop", async (event) => {
    event.preventDefault();
    zone.classList.remove("over");
    try {
      take(await drawingsDropped(event.dataTransfer));
    } catch {
      say("What was dropped cannot be read.");
    }
  });
}

function takeChoices(button, input) {
  button.addEventListener("click", () => input.click());
  input.addEventListener("change", () => {
    if (input.files.length > 0) take(drawingsChosen(input));
    input.value = "";
  });
}

/** If it does not come to its end, last.js says that the browser is too old. */
function begin() {
  if (!isKnown()) return;
  checks.start();
  takeDrops();
  takeChoices(element("choose-files"), element("files"));
  takeChoices(element("choose-folder"), element("folder"));
  element("stop").addEventListener("click", () => checks.stop());
  element("save").addEventListener("click", save);
  element("show-before").addEventListener("click", () => choosePicture(false));
  element("show-after").addEventListener("click", () => choosePicture(true));
  element("zoom").addEventListener("change", () => pictureView.setZoom(element("zoom").value));
  element("blink").checked = !lessMotion.matches;
  element("blink").addEventListener("change", () => pictureView.setBlinking(element("blink").checked));
  pictureView.setBlinking(element("blink").checked);
  element("text-part").addEventListener("toggle", showText);
  document.documentElement.dataset.begun = "";
}

begin();
