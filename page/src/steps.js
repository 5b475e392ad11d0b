// From drawing to drawing of the table, in its order: by buttons, and by keys while the focus is in the drawing.

const STEP_KEYS = { p: -1, n: 1 };

const takesText = (target) => target.matches("input:not([type=checkbox]), select, textarea");

class Steps {
  /** `part` has the two buttons and the place of the drawing in `table`. The keys are those that come from `area`. */
  constructor(part, table, area) {
    this.part = part;
    this.table = table;
    this.buttons = new Map([[-1, part.querySelector("#previous")], [1, part.querySelector("#next")]]);
    this.text = part.querySelector("#step-place");
    for (const [step, button] of this.buttons) button.addEventListener("click", () => this.go(step));
    area.addEventListener("keydown", (event) => this.take(event));
  }

  take(event) {
    const step = STEP_KEYS[event.key.toLowerCase()];
    if (!step || event.altKey || event.ctrlKey || event.metaKey || takesText(event.target)) return;
    event.preventDefault();
    this.go(step);
  }

  go(step) {
    const row = this.part.hidden ? null : this.table.neighbour(step);
    if (row) this.table.choose(row);
  }

  /** The place of the chosen drawing in the table as it is now. */
  show() {
    this.part.hidden = this.table.current === null;
    if (this.part.hidden) return;
    for (const [step, button] of this.buttons) button.disabled = !this.table.neighbour(step);
    const { number, count } = this.table.place();
    this.text.textContent = number > 0 ? `${number} of ${count} shown in the table` : "not shown in the table";
  }
}

export { Steps };
