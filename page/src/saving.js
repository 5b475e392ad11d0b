// Files that the page saves.

/** How long the address of a file that is saved is kept, in milliseconds. */
const KEPT = 1000;

/** The last part of a path, as the file itself is called. */
const ownName = (path) => path.split("/").at(-1);

function saveAs(blob, name) {
  const address = URL.createObjectURL(blob);
  const link = document.createElement("a");
  link.href = address;
  link.download = name;
  link.click();
  setTimeout(() => URL.revokeObjectURL(address), KEPT);
}

/** A drawing that was made of one, under another name, so that the one it was made from stays. */
function saveDrawing(bytes, made, { path }) {
  saveAs(new Blob([bytes], { type: "application/octet-stream" }), `${made}-${ownName(path)}`);
}

export { saveAs, saveDrawing };
