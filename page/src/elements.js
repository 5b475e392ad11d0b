// Elements of the page.

const element = (id) => document.getElementById(id);

/** An item of a list, which shows a line. */
function itemOf(line) {
  const item = document.createElement("li");
  item.textContent = line;
  return item;
}

export { element, itemOf };
