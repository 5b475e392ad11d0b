// One stop of the tab key among the buttons of a table, and arrow keys from row to row.

const PAGE_OF_ROWS = 10;

/** The element that is that many places after another one, or before it, or the last one on the way. */
function elementFrom(element, steps) {
  const way = steps < 0 ? "previousElementSibling" : "nextElementSibling";
  let found = element;
  for (let step = 0; step < Math.abs(steps) && found[way]; step++) found = found[way];
  return found;
}

const KEYS_OF_ROWS = {
  ArrowDown: (row) => elementFrom(row, 1),
  ArrowUp: (row) => elementFrom(row, -1),
  PageDown: (row) => elementFrom(row, PAGE_OF_ROWS),
  PageUp: (row) => elementFrom(row, -PAGE_OF_ROWS),
  Home: (row) => row.parentNode.firstElementChild,
  End: (row) => row.parentNode.lastElementChild,
};

class RovingStop {
  /** Each row of `body` has a button, which the tab key does not reach by itself. */
  constructor(body) {
    this.body = body;
    this.button = null;
    body.addEventListener("focusin", ({ target }) => this.moveTo(target.closest("button")));
    body.addEventListener("keydown", (event) => this.go(event));
  }

  moveTo(button) {
    if (this.button) this.button.tabIndex = -1;
    this.button = button;
    if (button) button.tabIndex = 0;
  }

  /** The stop stays where it is while its row is there. */
  keep() {
    if (!this.button || !this.body.contains(this.button)) this.moveTo(this.body.querySelector("button"));
  }

  go(event) {
    const goal = KEYS_OF_ROWS[event.key];
    if (!goal || event.altKey || event.ctrlKey || event.metaKey || event.shiftKey) return;
    event.preventDefault();
    goal(event.target.closest("tr")).querySelector("button").focus();
  }
}

export { RovingStop };
