// The redrawn drawing: the same picture in the plainest form, and the file to save.

import { itemOf } from "./elements.js";
import { saveDrawing } from "./saving.js";
import { linesOf, playersSentenceOf } from "./why.js";

/** What comes of redrawing, for people who draw. */
function sentenceOfRedrawing({ bytes, after }, size) {
  const written = after.players.length === 0 ? "so that it looks the same in all players" : "in the plainest form";
  return `Redrawn, it is the same picture, written ${written}: `
    + `${bytes.length.toLocaleString("en")} bytes, ${size.toLocaleString("en")} before.`;
}

/** What there is to say of players, after what it is said of. */
function playersLine(name, row) {
  const sentence = playersSentenceOf({ answer: "pass", row });
  return `${name}: ${sentence.charAt(0).toLowerCase()}${sentence.slice(1)}`;
}

class Redrawing {
  /** `redraw` answers what comes of a file. */
  constructor(part, button, redraw) {
    this.redraw = redraw;
    this.part = part;
    this.button = button;
    this.sentence = part.querySelector("#redrawn-sentence");
    this.before = part.querySelector("#players-before");
    this.after = part.querySelector("#players-after");
    this.changes = part.querySelector("#redrawn-changes");
    this.asked = 0;
    button.addEventListener("click", () => this.save());
  }

  /** The file of a drawing that is looked at, and what it is called beside the redrawn one. */
  async open(drawing, file, name) {
    if (drawing !== this.drawing) this.close();
    this.drawing = drawing;
    this.button.disabled = true;
    const mine = ++this.asked;
    const result = await this.redraw(file);
    if (mine !== this.asked) return;
    if (result.answer === "pass") this.show(result, file.size, name);
    else this.close();
  }

  close() {
    this.asked++;
    this.bytes = null;
    this.part.hidden = this.button.hidden = true;
  }

  show(result, size, name) {
    this.bytes = result.bytes;
    this.part.hidden = this.button.hidden = this.button.disabled = false;
    this.sentence.textContent = sentenceOfRedrawing(result, size);
    this.before.textContent = playersLine(name, result.before);
    this.after.textContent = playersLine("Redrawn", result.after);
    this.changes.replaceChildren(...linesOf(result.changes).map(itemOf));
  }

  save() {
    saveDrawing(this.bytes, "redrawn", this.drawing);
  }
}

export { Redrawing };
