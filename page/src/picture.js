// The picture on a canvas that is as large as what can be seen of it; the part that is looked at is painted.

import { textOf } from "../../library/js/characters.js";
import { COLOURS, dotOf, glyphCoverage, mixed } from "./glyphs.js";

const CELL_WIDTH = 8;
const CELL_ASPECT = 2;
const SMALLEST_CELL = 3;
const BORDERS = 2;
const MARGIN = 6;
const BLINK_PERIOD = 500;
const BLINK_BIT = 0x80;
const MARGIN_COLOUR = 0x333333;
const MARK_LINES = [[7, "#000"], [5, "#fff"], [2, "#d0006f"]];

class PictureView {
  constructor(view, space, canvas) {
    this.view = view;
    this.space = space;
    this.canvas = canvas;
    this.picture = null;
    this.marks = [];
    this.zoom = "fit";
    this.blinks = true;
    this.isOff = false;
    view.addEventListener("scroll", () => this.repaint());
    new ResizeObserver(() => this.layOut()).observe(view.parentElement);
    setInterval(() => this.turnBlink(), BLINK_PERIOD);
  }

  /**
   * Marks are rows and columns, counted from 1. A margin shows those at the edge, and the row below the last one is
   * there if a mark is in it.
   */
  show(picture, marks) {
    this.picture = picture;
    this.marks = marks;
    this.rows = marks.some(({ row }) => row > picture.lines) ? picture.lines + 1 : picture.lines;
    this.layOut();
    this.view.scrollTo(0, 0);
  }

  clear() {
    this.picture = null;
  }

  setZoom(zoom) {
    this.zoom = zoom;
    this.layOut();
  }

  setBlinking(blinks) {
    this.blinks = blinks;
    this.isOff = false;
    this.repaint();
  }

  turnBlink() {
    if (!this.picture?.blinks || this.picture.brightBackgrounds) return;
    this.isOff = this.blinks && !this.isOff;
    this.repaint();
  }

  /** Scrolls so that a mark is in the middle. */
  goTo({ row, column }) {
    this.view.scrollTo({
      left: (column - 0.5) * this.cellWidth / this.ratio - this.view.clientWidth / 2,
      top: (row - 0.5) * this.cellHeight / this.ratio - this.view.clientHeight / 2,
    });
  }

  /** A cell has a whole number of the screen's dots, so that neighbours touch and nothing is blurred. */
  setCellWidth(available) {
    const usual = CELL_WIDTH * this.ratio;
    const fitting = Math.floor((available * this.ratio - 2 * this.margin) / this.picture.columns);
    const wanted = this.zoom === "fit" ? Math.min(usual, fitting) : usual * Number(this.zoom);
    this.cellWidth = Math.max(SMALLEST_CELL, Math.round(wanted));
    this.cellHeight = this.cellWidth * CELL_ASPECT;
    this.width = this.picture.columns * this.cellWidth + 2 * this.margin;
    this.height = this.rows * this.cellHeight + 2 * this.margin;
    this.space.style.width = `${this.width / this.ratio}px`;
    this.space.style.height = `${this.height / this.ratio}px`;
    // Beside the picture there is room for the bar that scrolls it, if there is one.
    this.view.style.width = "";
    const bar = this.view.offsetWidth - this.view.clientWidth - BORDERS;
    this.view.style.width = `${this.width / this.ratio + bar + BORDERS}px`;
  }

  layOut() {
    const available = this.view.parentElement.clientWidth - BORDERS;
    if (!this.picture || available <= 0) return;
    this.ratio = window.devicePixelRatio || 1;
    this.margin = this.marks.length > 0 ? Math.round(MARGIN * this.ratio) : 0;
    this.resizeCanvas(0, 0);
    this.setCellWidth(available);
    // A bar to scroll a high picture takes some of the width.
    if (this.zoom === "fit" && this.view.scrollWidth > this.view.clientWidth) this.setCellWidth(this.view.clientWidth);
    if (this.coverage?.length !== 256 * this.cellWidth * this.cellHeight) {
      this.coverage = glyphCoverage(this.cellWidth, this.cellHeight);
    }
    this.resizeCanvas(Math.min(this.width, Math.ceil(this.view.clientWidth * this.ratio)),
      Math.min(this.height, Math.ceil(this.view.clientHeight * this.ratio)));
    this.paint();
  }

  resizeCanvas(width, height) {
    this.canvas.width = width;
    this.canvas.height = height;
    this.canvas.style.width = `${width / this.ratio}px`;
    this.canvas.style.height = `${height / this.ratio}px`;
  }

  repaint() {
    this.frame ??= requestAnimationFrame(() => {
      this.frame = null;
      if (this.picture) this.paint();
    });
  }

  /** Where the canvas lies on the picture. */
  corner() {
    const left = Math.min(Math.round(this.view.scrollLeft * this.ratio), this.width - this.canvas.width);
    const top = Math.min(Math.round(this.view.scrollTop * this.ratio), this.height - this.canvas.height);
    return { left: left - this.margin, top: top - this.margin };
  }

  paint() {
    const corner = this.corner();
    const context = this.canvas.getContext("2d", { alpha: false });
    context.resetTransform();
    context.putImageData(this.cellsFrom(corner), 0, 0);
    context.translate(-corner.left, -corner.top);
    for (const mark of this.marks) this.paintMark(context, mark);
  }

  /** The dots of the part that is looked at. */
  cellsFrom({ left, top }) {
    const { width, height } = this.canvas;
    const image = new ImageData(width, height);
    const dots = new Uint32Array(image.data.buffer).fill(dotOf(MARGIN_COLOUR));
    const colours = Array.from({ length: 256 }, (_, attribute) => this.coloursOf(attribute));
    const first = Math.max(0, -top);
    const end = Math.min(height, this.picture.lines * this.cellHeight - top);
    for (let y = first; y < end; y++) this.paintDots(dots.subarray(y * width, (y + 1) * width), left, top + y, colours);
    return image;
  }

  /** One row of dots, each of which lies in a cell. */
  paintDots(dots, left, down, colours) {
    const { columns, glyphs, attributes } = this.picture;
    const { cellWidth, cellHeight, coverage } = this;
    const row = Math.floor(down / cellHeight);
    const inCell = down % cellHeight;
    const end = Math.min(dots.length, columns * cellWidth - left);
    for (let x = Math.max(0, -left); x < end;) {
      const column = Math.floor((left + x) / cellWidth);
      const cell = row * columns + column;
      const { background, foreground } = colours[attributes[cell]];
      const cellEnd = Math.min(end, (column + 1) * cellWidth - left);
      let at = (glyphs[cell] * cellHeight + inCell) * cellWidth + left + x - column * cellWidth;
      for (; x < cellEnd; x++, at++) {
        const part = coverage[at];
        dots[x] = part === 0 ? background : part === 255 ? foreground : mixed(foreground, background, part);
      }
    }
  }

  coloursOf(attribute) {
    const background = COLOURS[attribute >> 4 & (this.picture.brightBackgrounds ? 15 : 7)];
    const isHidden = this.isOff && !this.picture.brightBackgrounds && attribute & BLINK_BIT;
    return { background: dotOf(background), foreground: dotOf(isHidden ? background : COLOURS[attribute & 15]) };
  }

  paintMark(context, { row, column }) {
    const left = (column - 1) * this.cellWidth;
    const top = (row - 1) * this.cellHeight;
    const width = this.picture.columns * this.cellWidth;
    for (const [thick, colour] of MARK_LINES) {
      context.strokeStyle = colour;
      context.lineWidth = thick;
      context.strokeRect(left - 2, top - 2, this.cellWidth + 4, this.cellHeight + 4);
    }
    for (const [thick, colour] of MARK_LINES.slice(1)) {
      context.fillStyle = colour;
      context.fillRect(0, top - 1 - thick / 4, width, thick / 2);
      context.fillRect(0, top + this.cellHeight + 1 - thick / 4, width, thick / 2);
    }
  }

  /** The rows as text, as a report has them. */
  rowsAsText(count) {
    const { columns, lines, glyphs } = this.picture;
    const rows = [];
    for (let row = 0; row < Math.min(lines, count); row++) {
      rows.push(textOf(glyphs.subarray(row * columns, (row + 1) * columns)));
    }
    return rows.join("\n");
  }
}

export { PictureView };
