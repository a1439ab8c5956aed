"use strict";
// Dots as shades, places of a page, and rulers. Nothing here touches a document, so node runs it too.

const COUNTS = Uint8Array.from({length: 256}, (_, byte) => { let count = 0; for (; byte; byte &= byte - 1) count++; return count; });

// How dark blocks of SIDE by SIDE dots are (1, 2, 4 or 8), 0 to 255; `left` is a multiple of 8. Blocks are told for whole bytes across.
function shades(bits, stride, left, top, wide, high, side) {
  const bytes = Math.min(stride - (left >> 3), wide + 7 >> 3), across = bytes * 8 / side, down = Math.ceil(high / side);
  const made = new Uint8ClampedArray(across * down), most = 255 / (side * side), each = 8 / side, mask = (1 << side) - 1;
  const sums = new Uint16Array(across);
  for (let row = 0; row < down; row++) {
    sums.fill(0);
    const end = Math.min(top + high, top + (row + 1) * side);
    for (let line = top + row * side; line < end; line++) {
      const start = line * stride + (left >> 3);
      for (let byte = 0; byte < bytes; byte++) {
        const some = bits[start + byte];
        if (some === 0) continue;
        for (let block = 0, by = 8 - side; block < each; block++, by -= side) sums[byte * each + block] += COUNTS[some >> by & mask];
      }
    }
    for (let block = 0; block < across; block++) made[row * across + block] = sums[block] ? Math.max(40, sums[block] * most) : 0;
  }
  return {made, across, down};
}

// Which dots are others, and in which box: left and right in bytes, top and bottom in lines; null where none is.
function changed(before, after, stride) {
  const made = new Uint8Array(after.length);
  let left = stride, right = -1, top = -1, bottom = -1;
  for (let place = 0; place < after.length; place++) {
    const other = before[place] ^ after[place];
    if (!other) continue;
    made[place] = other;
    const byte = place % stride;
    if (byte < left) left = byte;
    if (byte > right) right = byte;
    bottom = (place - byte) / stride;
    if (top < 0) top = bottom;
  }
  return right < 0 ? null : {bits: made, left, right, top, bottom};
}

// The physical place of a place in the frame, in dots, by orientation and the size of the physical page.
function toPhysical(width, height, orientation, x, y) {
  return [[x, y], [y, height - x], [width - x, height - y], [width - y, x]][orientation];
}

// The box of two corners of the frame, as left, top, width and height on the physical page.
function boxOf(width, height, orientation, left, top, right, bottom) {
  const [x, y] = toPhysical(width, height, orientation, left, top), [across, down] = toPhysical(width, height, orientation, right, bottom);
  return [Math.min(x, across), Math.min(y, down), Math.abs(across - x), Math.abs(down - y)];
}

// Boxes of what can be laid over a page, by the fields behind a step: the logical page, and the margins.
function outlines(fields, size) {
  const {orientation, resolution} = fields.page, times = resolution / 300, positions = 7200 / resolution;
  const width = size.width * times, height = size.height * times, turned = orientation % 2 === 1;
  const across = turned ? height : width, down = turned ? width : height;
  const offset = (turned ? size.landscape : size.portrait) * times, margins = fields.margins, top = margins.top / positions;
  const box = (...corners) => boxOf(width, height, orientation, ...corners);
  return {
    width, height,
    logical: box(offset, 0, across - offset, down),
    margins: box(offset + margins.left / positions, top, offset + margins.right / positions, top + margins.text_length / positions),
  };
}

// A step of 1, 2 or 5 times a power of ten, at least this long.
function niceStep(least) {
  const power = 10 ** Math.floor(Math.log10(least));
  return [1, 2, 5, 10].map(times => times * power).find(step => step >= least - 1e-9);
}

// The marks of a ruler from one dot to another: places in dots and their labels; `unit` is how many dots one has, and labels are 60 apart.
function ticks(from, to, zoom, unit) {
  const step = Math.max(niceStep(60 / (zoom * unit)), unit === 1 ? 1 : 0), made = [];
  for (let number = Math.ceil(from / unit / step); number * step * unit <= to; number++) {
    made.push({place: number * step * unit, label: String(Number((number * step).toFixed(6)))});
  }
  return made;
}

const dotAt = (bits, stride, x, y) => bits[y * stride + (x >> 3)] >> 7 - x % 8 & 1;

if (typeof module !== "undefined") module.exports = {shades, changed, toPhysical, boxOf, outlines, niceStep, ticks, dotAt, COUNTS};
