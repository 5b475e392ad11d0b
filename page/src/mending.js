// The fixed drawing: what may be changed, what is, and the file to save.

import { itemOf } from "./elements.js";
import { saveDrawing } from "./saving.js";
import { FAILURES, linesOf } from "./why.js";

const WRONG_NUMBER = "Lines have to be a number from 1 to 8192, and columns one from 1 to 1024.";

/** What comes of it, for people who draw. */
function sentenceOfMending(answer, changes) {
  const same = "it shows the same picture whatever was on the screen before";
  if (answer === "pass") return changes === "" ? `Nothing has to be changed: ${same}.` : `With these changes ${same}:`;
  if (answer === "refused") return "It cannot be fixed this way:";
  return answer === "wrong number" ? WRONG_NUMBER : FAILURES[answer];
}

const hasWrongNumber = (inputs) => inputs.some((input) => !input.checkValidity());

class Mending {
  /** `mend` answers what comes of a file, and `onMended` gets the fixed drawing, or null. */
  constructor(part, mend, onMended) {
    this.mend = mend;
    this.onMended = onMended;
    this.part = part;
    this.inputs = [...part.querySelectorAll("input")];
    this.sentence = part.querySelector("#mended-sentence");
    this.changes = part.querySelector("#changes");
    this.button = part.querySelector("#save-mended");
    this.asked = 0;
    for (const input of this.inputs) input.addEventListener("change", () => this.ask());
    this.button.addEventListener("click", () => this.save());
  }

  /** At first nothing is asked for. */
  open(drawing) {
    this.drawing = drawing;
    for (const input of this.inputs) {
      input.checked = false;
      if (input.type === "number") input.value = "";
    }
    this.part.hidden = false;
    return this.ask();
  }

  close() {
    this.asked++;
    this.part.hidden = true;
    this.onMended(null);
  }

  wanted() {
    const boxes = this.inputs.filter((input) => input.type === "checkbox" && input.checked);
    const numberIn = (name) => Number(this.inputs.find((input) => input.name === name).value);
    return {
      classes: boxes.reduce((sum, box) => sum + Number(box.value), 0),
      addRecord: numberIn("add-record"),
      columns: numberIn("columns"),
      lines: numberIn("lines"),
    };
  }

  async ask() {
    const mine = ++this.asked;
    this.button.disabled = true;
    if (hasWrongNumber(this.inputs)) return this.show({ answer: "wrong number", changes: "" });
    const result = await this.mend(this.drawing.file, this.wanted());
    if (mine === this.asked) this.show(result);
  }

  show({ answer, changes, bytes, row, picture }) {
    this.bytes = bytes;
    this.sentence.textContent = sentenceOfMending(answer, changes);
    this.changes.replaceChildren(...linesOf(changes).map(itemOf));
    this.button.disabled = answer !== "pass";
    this.onMended(answer === "pass" ? { answer, picture, row, bytes } : null);
  }

  save() {
    saveDrawing(this.bytes, "fixed", this.drawing);
  }
}

export { Mending };
