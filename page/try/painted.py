"""Whether the dots that the page paints are those of a drawing's cells."""
import unicodedata

COLOURS = [0x000000, 0x0000aa, 0x00aa00, 0x00aaaa, 0xaa0000, 0xaa00aa, 0xaa5500, 0xaaaaaa,
           0x555555, 0x5555ff, 0x55ff55, 0x55ffff, 0xff5555, 0xff55ff, 0xffff55, 0xffffff]
SHADES = {0xb0: 32, 0xb1: 64, 0xb2: 96}

# In how many ways a cell in the second row is painted within a second and a half.
BLINKS = """(async () => {
  const seen = new Set();
  const copy = new OffscreenCanvas(8, 16).getContext("2d", { willReadFrequently: true });
  pictureView.setZoom("1");
  pictureView.setBlinking(true);
  for (let time = 0; time < 15; time++) {
    copy.drawImage(pictureView.canvas, -160, -16);
    seen.add(copy.getImageData(0, 0, 8, 16).data.join());
    await new Promise((done) => setTimeout(done, 100));
  }
  pictureView.setBlinking(false);
  return seen.size;
})()"""

# Of each cell all dots, as numbers of its colours.
PAINTED = """(() => {
  element("zoom").value = "1";
  element("zoom").dispatchEvent(new Event("change"));
  const { picture, canvas, view } = pictureView;
  pictureView.marks = [];
  pictureView.layOut();
  const copy = new OffscreenCanvas(canvas.width, canvas.height);
  const context = copy.getContext("2d", { willReadFrequently: true });
  const cells = [];
  for (let row = 0; row < picture.lines; row++) {
    view.scrollTop = row * 16;
    pictureView.paint();
    context.drawImage(canvas, 0, 0);
    const dots = context.getImageData(0, row * 16 - Math.round(view.scrollTop), canvas.width, 16).data;
    for (let column = 0; column < Math.min(picture.columns, canvas.width >> 3); column++) {
      const colours = [];
      const numbers = [];
      for (let dot = 0; dot < 128; dot++) {
        const at = 4 * ((dot >> 3) * canvas.width + column * 8 + (dot & 7));
        const colour = dots[at] << 16 | dots[at + 1] << 8 | dots[at + 2];
        if (!colours.includes(colour)) colours.push(colour);
        numbers.push(colours.indexOf(colour));
      }
      cells.push([colours, numbers]);
    }
  }
  return cells;
})()"""


def block_dots(glyph):
    """Which dots of a blank or a block are covered, row by row; or nothing for other characters."""
    parts = {0xdb: (0, 0, 8, 16), 0xdc: (0, 8, 8, 16), 0xdd: (0, 0, 4, 16), 0xde: (4, 0, 8, 16), 0xdf: (0, 0, 8, 8)}
    left, top, right, bottom = parts.get(glyph, (0, 0, 0, 0))
    if glyph not in parts and glyph not in (0x00, 0x20, 0xff):
        return None
    return [left <= x < right and top <= y < bottom for y in range(16) for x in range(8)]


def box_strands(glyph):
    """How many strands of a box line reach each edge, by the name of its character."""
    name = unicodedata.name(bytes([glyph]).decode("cp437")) if glyph > 0x7f else ""
    if not name.startswith("BOX DRAWINGS "):
        return None
    words = name.split()[2:]
    weights = {"LIGHT": 1, "SINGLE": 1, "DOUBLE": 2}
    edges = {"UP": "t", "DOWN": "b", "LEFT": "l", "RIGHT": "r", "VERTICAL": "tb", "HORIZONTAL": "lr"}
    strands = dict.fromkeys("tblr", 0)
    for part in " ".join(words).split(" AND "):
        direction, weight = (next((w for w in part.split() if w in table), None) for table in (edges, weights))
        for edge in edges[direction]:
            strands[edge] = weights[weight or words[0]]
    return strands


def edge_dots(covered):
    """How many covered dots lie at each edge."""
    rows = [covered[8 * y:8 * y + 8] for y in range(16)]
    return {"t": sum(rows[0]), "b": sum(rows[15]), "l": sum(row[0] for row in rows), "r": sum(row[7] for row in rows)}


def looks_as(cell, painted, is_bright):
    """Whether the dots of a cell are those of its byte and its attribute."""
    glyph, attribute = cell
    colours, numbers = painted
    background = COLOURS[attribute >> 4 & (15 if is_bright else 7)]
    foreground = COLOURS[attribute & 15]
    dots = [colours[number] for number in numbers]
    if foreground == background:
        return set(dots) == {background}
    covered = [dot == foreground for dot in dots]
    if block_dots(glyph) is not None:
        return covered == block_dots(glyph) and set(dots) <= {foreground, background}
    if glyph in SHADES:
        return sum(covered) == SHADES[glyph] and set(dots) == {foreground, background}
    if box_strands(glyph):
        return edge_dots(covered) == box_strands(glyph) and set(dots) == {foreground, background}
    return background in dots and len(colours) > 1
