// The filter of the table: which rows it shows, and how many there are of each kind.

const FILTERS = {
  all: { label: "All", lets: () => true },
  refused: { label: "Refused", lets: ({ verdict }) => verdict === "refused" },
  cleared: { label: "Passes on a cleared screen", lets: ({ verdict }) => verdict === "cleared" },
  unanswered: { label: "No answer", lets: ({ verdict }) => verdict === "no answer" },
};

class TableFilter {
  /** `onChange` is called when another kind of rows is to be shown. */
  constructor(part, onChange) {
    this.onChange = onChange;
    this.buttons = Object.keys(FILTERS).map((key) => this.makeButton(key));
    part.replaceChildren(...this.buttons);
    this.clear();
  }

  makeButton(key) {
    const button = document.createElement("button");
    button.type = "button";
    button.dataset.filter = key;
    button.addEventListener("click", () => this.choose(key));
    return button;
  }

  clear() {
    this.counts = Object.fromEntries(Object.keys(FILTERS).map((key) => [key, 0]));
    this.key = "all";
    this.show();
  }

  choose(key) {
    this.key = key;
    this.show();
    this.onChange();
  }

  count(row) {
    for (const [key, { lets }] of Object.entries(FILTERS)) if (lets(row)) this.counts[key]++;
  }

  lets(row) {
    return FILTERS[this.key].lets(row);
  }

  /** The counts so far. A kind without rows cannot be chosen. */
  show() {
    for (const button of this.buttons) {
      const { filter } = button.dataset;
      button.textContent = `${FILTERS[filter].label}: ${this.counts[filter].toLocaleString("en")}`;
      button.setAttribute("aria-pressed", String(filter === this.key));
      button.disabled = filter !== "all" && this.counts[filter] === 0;
    }
  }
}

export { TableFilter };
