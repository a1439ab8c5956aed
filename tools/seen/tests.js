"use strict";
// The pure parts of the page of tools/show, run by node: node tests.js checks worked values, and tells how many; node tests.js DATA tells, for
// each entry of a film, a sum of the page and the fields behind it, which tools/check_show compares with those of the trace.

const assert = require("node:assert");
const {readFileSync} = require("node:fs");
const {crc32, deflateSync} = require("node:zlib");
const {Film, FilmPage, Chunks, inflated, column, lastUpTo} = require("./film.js");
const dots = require("./dots.js");
const list = require("./list.js");

let checks = 0;
function same(found, wanted, what) {
  checks++;
  assert.deepStrictEqual(found, wanted, what);
}

const packed = bytes => deflateSync(Buffer.from(bytes)).toString("base64");
function packedColumn(numbers) {
  const differences = Int32Array.from(numbers, (number, place) => number - (place ? numbers[place - 1] : 0));
  const bytes = new Uint8Array(differences.buffer), planes = [];
  for (let plane = 0; plane < 4; plane++) for (let place = plane; place < bytes.length; place += 4) planes.push(bytes[place]);
  return packed(planes);
}

async function packing() {
  same(Array.from(await inflated(packed([1, 2, 3]))), [1, 2, 3], "bytes");
  same(Array.from(await column(packedColumn([0, 5, -1, 70000, -2147483648, 7]))), [0, 5, -1, 70000, -2147483648, 7], "a column");
  same(Array.from(await column(packedColumn([]))), [], "a column of nothing");
  same([-1, 0, 1, 2, 3, 9].map(wanted => lastUpTo([0, 2, 2, 5], wanted)), [-1, 0, 0, 2, 2, 3], "the last up to a number");
  const read = [], chunks = new Chunks(Array.from({length: 70}, (_, number) => number), async number => { read.push(number); return number; });
  for (let number = 0; number < 70; number++) await chunks.get(number);
  await chunks.get(69); await chunks.get(0);
  same([read.length, read.at(-1), chunks.now(1), chunks.now(69)], [71, 0, undefined, 69], "chunks are forgotten, the oldest first");
}

// A page of 16 by 4 dots with three patches: a row, a dot in it that becomes white, and another row.
function smallPage() {
  return new FilmPage({width: 16, height: 4, first: 3, last: 9, chunks: [packed([0xFF, 0xF0, 0xFE, 0x80])],
    boxes: [[3, 5, 7], [0, 0, 1], [1, 1, 3], [2, 1, 1], [1, 1, 1]].map(packedColumn)});
}

async function films() {
  const page = smallPage(), rows = async entry => Buffer.from(await page.bits(entry)).toString("hex");
  same(await rows(2), "0000".repeat(4), "before its first patch a page is white");
  same(await rows(3), "0000fff000000000", "behind it");
  same(await rows(4), "0000fff000000000", "and until the next one");
  same(await rows(5), "0000fef000000000", "a patch is laid over");
  same(await rows(Infinity), "0000fef000000080", "at its end");
  same(await rows(3), "0000fff000000000", "and back");
  same([page.patchesBy(2), page.patchesBy(5), page.patchesBy(99)], [0, 2, 3], "how many patches");
  const made = [[0, 1, 9], [7, 1, 9], [7, 1, 4], [8, 1, 9], [8, 3, 9], [8, 3, 6], [0, 0, 9]];
  same(await Promise.all(made.map(([x, y, entry]) => page.madeBy(x, y, entry))), [0, 1, 0, 0, 2, -1, -1], "which patch made a dot");
  const many = new FilmPage({width: 8, height: 1, first: 0, last: 1999, chunks: [packed(Array.from({length: 2000}, (_, place) => place & 255))],
    boxes: [Array.from({length: 2000}, (_, place) => place), ...[0, 0, 1, 1].map(number => Array(2000).fill(number))].map(packedColumn)});
  for (const entry of [1999, 3, 1024, 511, 512, 1500]) same((await many.bits(entry))[0], entry & 255, "a page is made again from what is kept");
  same(Array.from(many.keys.keys()), [512, 1024, 1536], "and is kept now and then");
}

// What a row and a field are told as.
function words() {
  const row = ["par *t600R", "9", "ESC*t600R", "Raster Graphics Resolution, 600 dots per inch", "changes nothing", 8, "no such value"];
  const text = ["brk 4142", "3 to 4", "", '2 bytes of text, "AB"', "no row: text leaves no marks", 9, "text"];
  same(list.partsOf(row), {title: "ESC*t600R", what: row[3], effect: "changes nothing", flags: 8, cause: "no such value"}, "the parts of a row");
  same(list.partsOf(text), {title: text[3], what: "", effect: text[4], flags: 9, cause: "text"}, "and of text, which has no spelling");
  same(list.remarkOf(row), "at 9, ESC*t600R: Raster Graphics Resolution, 600 dots per inch: changes nothing", "a remark, as explain writes it");
  same(list.remarkOf(text), 'at 3 to 4: 2 bytes of text, "AB": no row: text leaves no marks', "and of text");
  const now = {page: {resolution: 600}}, shown = (value, ...word) => Object.values(list.fieldText(value, ["", ...word], now)).join("");
  same([shown(7200, "position", {}), shown(6, "position", {}), shown(-12, "position", {})], ["600 dots (7,200)", "0.5 dots (6)", "-1 dot (-12)"], "places in dots of the page");
  same([shown(2, "", {2: "Letter"}), shown(24, "units", {}), shown(300, "dots per inch", {}), shown(5, "", {})], ["Letter", "300 per inch", "300 dots per inch", "5"], "values and units");
  same([shown(null, "", {}), shown(true, "", {}), shown(false, "", {}), shown([[1, 2], [3, 4]], "", {}), shown([], "", {})], ["none", "on", "off", "1, 2; 3, 4", "none"], "others");
}

function shades() {
  const bits = Uint8Array.from([0xF0, 0x01, 0x0F, 0x80]), made = (...words) => Array.from(dots.shades(bits, 2, ...words).made);
  same(made(0, 0, 16, 2, 8), [40, 40], "blocks of 8 by 8 with a few dots are seen");
  same(made(0, 0, 16, 2, 4), [64, 64, 40, 40], "blocks of 4 by 4");
  same(made(0, 0, 8, 1, 1), [255, 255, 255, 255, 0, 0, 0, 0], "dots");
  same(made(8, 1, 8, 1, 2), [64, 0, 0, 0], "of the second byte of the second line, by two");
  same(dots.changed(bits, bits, 2), null, "nothing changed");
  const other = dots.changed(bits, Uint8Array.from([0xF0, 0x01, 0x0F, 0x81]), 2);
  same([Array.from(other.bits), other.left, other.right, other.top, other.bottom], [[0, 0, 0, 1], 1, 1, 1, 1], "what changed, and its box");
  same([dots.dotAt(bits, 2, 0, 0), dots.dotAt(bits, 2, 15, 0), dots.dotAt(bits, 2, 4, 0)], [1, 1, 0], "a dot");
}

function places() {
  same([0, 1, 2, 3].map(turn => dots.toPhysical(2550, 3300, turn, 60, 150)), [[60, 150], [150, 3240], [2490, 3150], [2400, 60]], "places in a turned frame");
  same(dots.boxOf(2550, 3300, 1, 60, 0, 3240, 2550), [0, 60, 2550, 3180], "the logical page in landscape");
  const fields = {page: {orientation: 0, resolution: 600, size: 2}, margins: {left: 7200, right: 14400, top: 3600, text_length: 7200}};
  same(dots.outlines(fields, {width: 2550, height: 3300, portrait: 75, landscape: 60}),
    {width: 5100, height: 6600, logical: [150, 0, 4800, 6600], margins: [750, 300, 600, 600]}, "outlines at 600 dots per inch");
  same([.3, 1, 3, 60, 7].map(dots.niceStep), [.5, 1, 5, 100, 10], "steps of a ruler");
  same(dots.ticks(0, 300, 1, 1).map(tick => tick.place), [0, 100, 200, 300], "marks in dots");
  same(dots.ticks(290, 910, .25, 300).map(tick => [tick.place, tick.label]), [[300, "1"], [600, "2"], [900, "3"]], "marks in inches");
}

function lists() {
  same([list.heightOf(10, 42), list.heightOf(1e6, 42)], [420, 8e6], "how high a list stands");
  same(list.seenRows(0, 420, 1000, 42), {first: 0, end: 14, top: 0}, "the first rows");
  same(list.seenRows(4200, 420, 1000, 42), {first: 96, end: 114, top: 4032}, "rows in the midst");
  for (const count of [1000, 190476, 190477, 1e6, 5e6]) {
    const end = list.scrollFor(Infinity, 500, count, 42), seen = list.seenRows(end, 500, count, 42);
    same([end <= list.MOST_PIXELS - 500 || count * 42 <= list.MOST_PIXELS, seen.end, Math.round(seen.top + (count - seen.first) * 42 - end)], [true, count, 500],
      "the last row stands at the lower edge");
  }
  for (const row of [0, 3, 500000, 999999]) {
    const scroll = list.scrollToRow(row, 0, 500, 1e6, 42), pixels = list.rowPixels(scroll, 500, 1e6, 42);
    same(pixels <= row * 42 + 1 && row * 42 + 42 <= pixels + 501, true, "a row is shown, " + row);
    same(list.scrollToRow(row, scroll, 500, 1e6, 42), scroll, "and stays where it is seen");
  }
  const words = list.wordsOf;
  same(list.matches(words("*T"), "par *tR", "at 5, ESC*t300R"), true, "letters of a command");
  same(list.matches(words("ESC*t300 raster"), "par *tR", "at 5, ESC*t300R: Raster Graphics Resolution"), true, "as PCL spells it, and a name");
  same(list.matches(words("escE"), "esc E", "at 0, ESC E: Printer Reset"), true, "an escape without its space");
  same(list.matches(words("*t600"), "par *tR", "at 5, ESC*t300R"), false, "another value");
  same(["#5", "#0", "#foo", "#", "", "#5x", "#999", "#-1", "#1e3", "#99999999999999999"].map(hash => list.numberIn(hash, 100)),
    [5, null, null, null, null, null, 100, null, null, null], "a number in an address");
}

// For each entry a sum of the page that is open behind it, and the fields; then each side's sum. Backwards, so that nothing helps.
async function told(path) {
  const film = await new Film(JSON.parse(readFileSync(path))).load(), entries = [];
  for (let entry = film.count - 1; entry >= 0; entry--) {
    const open = await film.pageAt(entry), {now} = await film.fields(entry);
    entries.unshift([film.step[entry], open ? crc32(open.bits) : 0, now]);
  }
  const sides = [];
  for (let side = 0; side < film.data.sides.length; side++) sides.push(crc32((await film.side(side)).bits));
  const rows = [];
  for (let row = 0; row < film.rowCount; row++) rows.push([...film.entriesOf(row), (await film.row(row))[0]]);
  return {entries, sides, rows};
}

async function main() {
  if (process.argv[2]) {
    process.stdout.write(JSON.stringify(await told(process.argv[2])));
    return;
  }
  await packing();
  await films();
  words();
  shades();
  places();
  lists();
  console.log(checks + " checks");
}

main().catch(fault => { console.error(fault); process.exit(1); });
