"use strict";
// The film of a stream, as tools/seen/shown.py packs it: rows of text, and for each entry its fields and the page behind it. Nothing here
// touches a document, so node runs it too.

const ALL_IN_MEMORY = 64;        // chunks of a kind that are kept inflated
const KEY_PATCHES = 512;         // a page is kept after so many patches
const KEY_BYTES = 160e6;         // that the pages which are kept may take

function bytesOf(text) {
  const plain = atob(text), bytes = new Uint8Array(plain.length);
  for (let place = 0; place < plain.length; place++) bytes[place] = plain.charCodeAt(place);
  return bytes;
}

async function inflated(text) {
  const stream = new Blob([bytesOf(text)]).stream().pipeThrough(new DecompressionStream("deflate"));
  return new Uint8Array(await new Response(stream).arrayBuffer());
}

// Whole numbers that are packed as differences, the first bytes of all before the second ones.
async function column(text) {
  const bytes = await inflated(text), count = bytes.length / 4, numbers = new Int32Array(count);
  let number = 0;
  for (let place = 0; place < count; place++) {
    number = number + (bytes[place] | bytes[count + place] << 8 | bytes[2 * count + place] << 16 | bytes[3 * count + place] << 24) | 0;
    numbers[place] = number;
  }
  return numbers;
}

// Chunks that are inflated when they are asked for; those that were not for the longest time are forgotten.
class Chunks {
  constructor(texts, read) {
    this.texts = texts;
    this.read = read;
    this.held = new Map();
  }

  now(number) {
    return this.held.get(number);
  }

  async get(number) {
    let chunk = this.held.get(number);
    if (chunk === undefined) chunk = await this.read(this.texts[number]);
    this.held.delete(number);
    this.held.set(number, chunk);
    if (this.held.size > ALL_IN_MEMORY) this.held.delete(this.held.keys().next().value);
    return chunk;
  }
}

async function jsonOf(text) {
  return JSON.parse(new TextDecoder().decode(await inflated(text)));
}

// The last place in ordered numbers that holds no more than this one; -1 where the first holds more.
function lastUpTo(numbers, wanted, from = 0, to = numbers.length) {
  let low = from - 1, high = to;
  while (high - low > 1) {
    const middle = low + high >> 1;
    if (numbers[middle] <= wanted) low = middle; else high = middle;
  }
  return low;
}

// A page that was open: its patches, and its dots behind any of them.
class FilmPage {
  constructor(data) {
    this.width = data.width;
    this.height = data.height;
    this.stride = data.width + 7 >> 3;
    this.first = data.first;
    this.last = data.last;
    this.data = data;
    this.keys = new Map();
    this.ready = null;
  }

  load() {
    this.ready ||= this.loaded();
    return this.ready;
  }

  async loaded() {
    [this.entry, this.left, this.top, this.across, this.down] = await Promise.all(this.data.boxes.map(column));
    this.offset = new Float64Array(this.entry.length + 1);
    for (let patch = 0; patch < this.entry.length; patch++) this.offset[patch + 1] = this.offset[patch] + this.across[patch] * this.down[patch];
    this.chunks = new Chunks(this.data.chunks, inflated);
  }

  // The rows of a patch; a promise where a chunk is not there yet.
  rowsOf(patch) {
    const from = this.offset[patch], to = this.offset[patch + 1], first = Math.floor(from / CHUNK), last = Math.floor(Math.max(from, to - 1) / CHUNK);
    const chunk = this.chunks.now(first);
    if (first === last && chunk) return chunk.subarray(from - first * CHUNK, to - first * CHUNK);
    return this.gathered(from, to, first, last);
  }

  async gathered(from, to, first, last) {
    const rows = new Uint8Array(to - from);
    for (let number = first; number <= last; number++) {
      const chunk = await this.chunks.get(number), start = Math.max(from, number * CHUNK), end = Math.min(to, number * CHUNK + chunk.length);
      rows.set(chunk.subarray(start - number * CHUNK, end - number * CHUNK), start - from);
    }
    return rows;
  }

  lay(bits, patch, rows) {
    const wide = this.across[patch];
    let to = this.top[patch] * this.stride + this.left[patch];
    for (let from = 0; from < rows.length; from += wide, to += this.stride) bits.set(rows.subarray(from, from + wide), to);
  }

  // How many of its patches are made by an entry.
  patchesBy(entry) {
    return lastUpTo(this.entry, entry) + 1;
  }

  // Its dots behind an entry, a copy of their own.
  async bits(entry) {
    await this.load();
    const count = this.patchesBy(entry);
    let from = count - count % KEY_PATCHES;
    while (from > 0 && !this.keys.has(from)) from -= KEY_PATCHES;
    const bits = from > 0 ? this.keys.get(from).slice() : new Uint8Array(this.stride * this.height);
    for (let patch = from; patch < count; patch++) {
      const rows = this.rowsOf(patch);
      this.lay(bits, patch, rows instanceof Uint8Array ? rows : await rows);
      if ((patch + 1) % KEY_PATCHES === 0) this.keep(patch + 1, bits);
    }
    return bits;
  }

  keep(count, bits) {
    if (this.keys.has(count)) return;
    this.keys.set(count, bits.slice());
    while (this.keys.size > 1 && this.keys.size * bits.length > KEY_BYTES) this.keys.delete(this.keys.keys().next().value);
  }

  // The patch up to this entry that made a dot what it is, or -1 where none did.
  async madeBy(x, y, entry) {
    await this.load();
    let found = -1, value = null;
    for (let patch = this.patchesBy(entry) - 1; patch >= 0; patch--) {
      const byte = (x >> 3) - this.left[patch], line = y - this.top[patch];
      if (byte < 0 || line < 0 || byte >= this.across[patch] || line >= this.down[patch]) continue;
      const rows = await this.rowsOf(patch), now = rows[line * this.across[patch] + byte] >> 7 - x % 8 & 1;
      if (value !== null && now !== value) return found;
      found = patch;
      value = now;
    }
    return value ? found : -1;   // a page begins white
  }
}

const CHUNK = 1 << 20;

class Film {
  constructor(data) {
    this.data = data;
    this.count = data.entries.count;
    this.rowCount = data.rows.count;
    this.rowChunks = new Chunks(data.rows.chunks, jsonOf);
    this.fieldChunks = new Chunks(data.entries.fields, jsonOf);
    this.pages = data.pages.map(page => new FilmPage(page));
  }

  async load() {
    const names = Object.keys(this.data.entries.columns);
    const columns = await Promise.all(names.map(name => column(this.data.entries.columns[name])));
    names.forEach((name, place) => { this[name] = columns[place]; });
    this.flags = await inflated(this.data.entries.flags);
    this.firsts = await column(this.data.rows.first);
    return this;
  }

  // The row of the stream to which an entry belongs, and its first and last entry.
  rowOf(entry) {
    return Math.max(0, lastUpTo(this.firsts, entry));
  }

  entriesOf(row) {
    return [this.firsts[row], row + 1 < this.rowCount ? this.firsts[row + 1] - 1 : this.count - 1];
  }

  // Text, remark and flags of a row.
  async row(number) {
    return (await this.rowChunks.get(Math.floor(number / this.data.rows.size)))[number % this.data.rows.size];
  }

  rowNow(number) {
    const chunk = this.rowChunks.now(Math.floor(number / this.data.rows.size));
    return chunk && chunk[number % this.data.rows.size];
  }

  // The fields behind an entry by object and name, and the names of those that are others than behind the entry before.
  async fields(entry) {
    if (entry < 0) return {now: this.data.start, changed: new Set()};
    const chunk = await this.fieldChunks.get(Math.floor(entry / this.data.entries.size)), place = entry % this.data.entries.size;
    const now = structuredClone(chunk[0]), changed = new Set();
    for (let one = 2; one <= place + 1; one++) this.lay(now, chunk[one]);
    const told = chunk[place + 1] || {};
    for (const [name, some] of Object.entries(told)) {
      for (const [key, value] of Object.entries(some)) {
        if (entry > 0 || JSON.stringify(this.data.start[name][key]) !== JSON.stringify(value)) changed.add(name + "." + key);
      }
    }
    return {now, changed};
  }

  lay(now, told) {
    for (const [name, some] of Object.entries(told || {})) Object.assign(now[name], some);
  }

  // The dots of the page that is open behind an entry; null where none has a mark.
  async pageAt(entry) {
    const number = entry < 0 ? -1 : this.page[entry];
    if (number < 0) return null;
    const page = this.pages[number];
    return {number, page, bits: await page.bits(entry)};
  }

  // The dots of a side that went out.
  async side(number) {
    const side = this.data.sides[number], page = this.pages[side.page] || null, stride = side.width + 7 >> 3;
    const bits = page ? await page.bits(Infinity) : new Uint8Array(stride * side.height);
    if (side.more) bits.set(await inflated(side.more.rows), side.more.top * stride);
    return {page, side, bits, width: side.width, height: side.height, stride};
  }

  // The numbers of the sides that go out in an entry.
  sidesOf(entry) {
    if (!(this.flags[entry] & 8)) return [];
    const before = entry > 0 ? this.sheets[entry - 1] : 0, now = this.sheets[entry];
    return this.data.sides.flatMap((side, number) => side.sheet > before && side.sheet <= now ? [number] : []);
  }

  // The first and the last entry that have to do with a page of the film, and its last patch.
  async marksOf(number) {
    await this.pages[number].load();
    return this.pages[number].entry;
  }
}

if (typeof module !== "undefined") module.exports = {Film, FilmPage, Chunks, bytesOf, inflated, column, lastUpTo};
