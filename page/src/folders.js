// The files of what is dropped or chosen, with their paths.

const isDrawingName = (path) => /\.ans$/i.test(path);

function entriesIn(reader) {
  return new Promise((resolve, reject) => reader.readEntries(resolve, reject));
}

function fileOf(entry) {
  return new Promise((resolve, reject) => entry.file(resolve, reject));
}

/** All files below an entry. A folder gives its entries in parts, the last of which is empty. */
async function filesBelowEntry(entry) {
  if (entry.isFile) return [{ file: await fileOf(entry), path: entry.fullPath.replace(/^\//, "") }];
  const reader = entry.createReader();
  const files = [];
  for (let part = await entriesIn(reader); part.length > 0; part = await entriesIn(reader)) {
    for (const each of part) files.push(...await filesBelowEntry(each));
  }
  return files;
}

async function filesBelowHandle(handle, above = "") {
  const path = `${above}${handle.name}`;
  if (handle.kind === "file") return [{ file: await handle.getFile(), path }];
  const files = [];
  for await (const each of handle.values()) files.push(...await filesBelowHandle(each, `${path}/`));
  return files;
}

/** A file is taken whatever its name; of a folder those whose names end in .ans. */
function chosenFrom(files, isFolder) {
  const drawings = isFolder ? files.filter(({ path }) => isDrawingName(path)) : files;
  return { drawings, others: files.length - drawings.length };
}

/** Chromium reads no entries for a page that is a file itself, but handles; Firefox has no handles. */
async function chosenFromItem(item) {
  if (item.getAsFileSystemHandle) {
    const handle = await item.getAsFileSystemHandle();
    return chosenFrom(await filesBelowHandle(handle), handle.kind === "directory");
  }
  const entry = item.webkitGetAsEntry();
  return chosenFrom(await filesBelowEntry(entry), entry.isDirectory);
}

async function drawingsDropped(transfer) {
  // After the first wait the list of what is dropped is empty, so all are asked at once.
  const items = [...transfer.items].filter(({ kind }) => kind === "file");
  const found = await Promise.all(items.map(chosenFromItem));
  return {
    drawings: found.flatMap(({ drawings }) => drawings),
    others: found.reduce((sum, { others }) => sum + others, 0),
  };
}

function drawingsChosen(input) {
  const files = [...input.files].map((file) => ({ file, path: file.webkitRelativePath || file.name }));
  return chosenFrom(files, input.webkitdirectory);
}

export { drawingsChosen, drawingsDropped };
