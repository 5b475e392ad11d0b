// The characters of code page 437: blocks, shades and box lines are painted here, the others are the browser's own.

import { CODE_PAGE_437 } from "../../library/js/characters.js";

const COLOURS = [0x000000, 0x0000aa, 0x00aa00, 0x00aaaa, 0xaa0000, 0xaa00aa, 0xaa5500, 0xaaaaaa,
  0x555555, 0x5555ff, 0x55ff55, 0x55ffff, 0xff5555, 0xff55ff, 0xffff55, 0xffffff];

/** A colour as the four bytes of a dot: red, green, blue, and that nothing shines through. */
const dotOf = (colour) => 0xff << 24 | (colour & 0xff) << 16 | colour & 0xff00 | colour >> 16;

// A cell has 8 times 16 dots. Each shade has two rows of dots, which alternate.
const SHADES = {
  0xb0: { rows: [0x11, 0x44], part: 0.25 },
  0xb1: { rows: [0x55, 0xaa], part: 0.5 },
  0xb2: { rows: [0xdd, 0x77], part: 0.75 },
};
const DOTS_WIDE = 8;
const DOTS_HIGH = 16;

// Left, top, right and bottom, in dots.
const BLOCKS = {
  0xdb: [0, 0, 8, 16], 0xdc: [0, 8, 8, 16], 0xdd: [0, 0, 4, 16], 0xde: [4, 0, 8, 16], 0xdf: [0, 0, 8, 8],
  0xfe: [1, 4, 7, 11],
};

// Of B3h to DAh the strands that go up, to the right, down and to the left.
const FIRST_BOX_LINE = 0xb3;
const BOX_LINES = ("1010 1011 1012 2021 0021 0012 2022 2020 0022 2002 2001 1002 0011 1100 1101 0111 1110 0101 1111 1210"
  + " 2120 2200 0220 2202 0222 2220 0202 2222 1202 2101 0212 0121 2100 1200 0210 0120 2121 1212 1001 0110").split(" ");

function blockOf(width, height, [left, top, right, bottom]) {
  const across = (dots) => Math.round(dots * width / DOTS_WIDE);
  const down = (dots) => Math.round(dots * height / DOTS_HIGH);
  return [across(left), down(top), across(right) - across(left), down(bottom) - down(top)];
}

function paintShade(context, shade, width, height) {
  if (width < DOTS_WIDE) {
    context.globalAlpha = shade.part;
    context.fillRect(0, 0, width, height);
    context.globalAlpha = 1;
    return;
  }
  for (let y = 0; y < DOTS_HIGH; y++) {
    for (let x = 0; x < DOTS_WIDE; x++) {
      if (shade.rows[y % 2] >> x & 1) context.fillRect(...blockOf(width, height, [x, y, x + 1, y + 1]));
    }
  }
}

/** Where a single strand begins, counted from the middle, beside strands across it. */
function singleStart(gap, before, after, isThrough) {
  if (isThrough || (before < 2 && after < 2)) return 0;
  return before === 2 && after === 2 ? gap : -gap;
}

/** Where one of two strands begins, by the strands across it on its own side and on the other. */
function doubleStart(gap, own, other) {
  if (own === 2) return gap;
  return own === 0 && other === 2 ? -gap : 0;
}

/** The strands of one arm: how far each is from the middle line, and where it begins. */
function strandsOf(arm, opposite, before, after, gap) {
  if (arm === 0) return [];
  if (arm === 1) return [[0, singleStart(gap, before, after, opposite === 1)]];
  return [[-gap, doubleStart(gap, before, after)], [gap, doubleStart(gap, after, before)]];
}

function paintBoxLine(context, arms, width, height) {
  const [up, right, down, left] = [...arms].map(Number);
  const thick = Math.max(1, Math.round(width / DOTS_WIDE));
  const gap = Math.max(thick + 1, Math.round(1.5 * thick));
  const middleX = Math.floor((width - thick) / 2);
  const middleY = Math.floor((height - thick) / 2);
  const across = (offset, from, to) => context.fillRect(from, middleY + offset, to - from, thick);
  const along = (offset, from, to) => context.fillRect(middleX + offset, from, thick, to - from);
  for (const [offset, start] of strandsOf(right, left, up, down, gap)) across(offset, middleX + start, width);
  for (const [offset, start] of strandsOf(left, right, up, down, gap)) across(offset, 0, middleX - start + thick);
  for (const [offset, start] of strandsOf(down, up, left, right, gap)) along(offset, middleY + start, height);
  for (const [offset, start] of strandsOf(up, down, left, right, gap)) along(offset, 0, middleY - start + thick);
}

function paintLetter(context, glyph, width, height) {
  // The selector asks for the plain form of what else may come as a coloured picture.
  const letter = CODE_PAGE_437[glyph] + (glyph < 0x20 ? "\ufe0e" : "");
  context.font = `${Math.max(1, Math.round(height * 0.78))}px monospace`;
  const natural = context.measureText(letter).width || width;
  context.save();
  context.scale(Math.min(1, width / natural), 1);
  const scaled = Math.max(width, natural);
  context.fillText(letter, (scaled - natural) / 2, Math.round(height * 0.76));
  context.restore();
}

/** Paints a character into the cell at the origin, in the colour that is set. */
function paintGlyph(context, glyph, width, height) {
  if (glyph === 0 || glyph === 0x20 || glyph === 0xff) return;
  if (BLOCKS[glyph]) context.fillRect(...blockOf(width, height, BLOCKS[glyph]));
  else if (SHADES[glyph]) paintShade(context, SHADES[glyph], width, height);
  else if (BOX_LINES[glyph - FIRST_BOX_LINE]) paintBoxLine(context, BOX_LINES[glyph - FIRST_BOX_LINE], width, height);
  else paintLetter(context, glyph, width, height);
}

/** How much of each dot the characters cover, from 0 to 255: character after character, row after row. */
function glyphCoverage(width, height) {
  const canvas = new OffscreenCanvas(width, height);
  const context = canvas.getContext("2d", { willReadFrequently: true });
  const coverage = new Uint8Array(256 * width * height);
  for (let glyph = 0; glyph < 256; glyph++) {
    context.clearRect(0, 0, width, height);
    paintGlyph(context, glyph, width, height);
    const { data } = context.getImageData(0, 0, width, height);
    for (let dot = 0; dot < width * height; dot++) coverage[glyph * width * height + dot] = data[4 * dot + 3];
  }
  return coverage;
}

/** A colour that covers a part of another, both as the four bytes of a dot. */
function mixed(colour, ground, part) {
  let result = 0xff << 24;
  for (let shift = 0; shift < 24; shift += 8) {
    const over = colour >>> shift & 255;
    const under = ground >>> shift & 255;
    result |= Math.round(under + (over - under) * part / 255) << shift;
  }
  return result;
}

export { COLOURS, dotOf, glyphCoverage, mixed };
