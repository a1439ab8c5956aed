"use strict";
// Which rows of a long list are seen, and which match what is looked for. Nothing here touches a document, so node runs it too.

const MOST_PIXELS = 8e6;    // browsers cut heights somewhere above 16 million

// How high the list stands, and by how much a pixel of its scroll bar moves it.
function heightOf(count, high) {
  return Math.min(count * high, MOST_PIXELS);
}

// How far the rows are scrolled, in pixels of rows, where the scroll bar stands here.
function rowPixels(scroll, view, count, high) {
  const whole = count * high, shown = heightOf(count, high);
  if (whole === shown || shown <= view) return scroll;
  return scroll / (shown - view) * (whole - view);
}

// Where the scroll bar stands so that the rows are scrolled so far.
function scrollFor(pixels, view, count, high) {
  const whole = count * high, shown = heightOf(count, high), most = Math.max(0, whole - view);
  const wanted = Math.max(0, Math.min(most, pixels));
  return whole === shown || most === 0 ? wanted : wanted / most * (shown - view);
}

// The rows that are seen: the first, the one behind the last, and where the first stands, in pixels from the top of the list's height.
function seenRows(scroll, view, count, high, more = 4) {
  const pixels = rowPixels(scroll, view, count, high), first = Math.max(0, Math.floor(pixels / high) - more);
  return {first, end: Math.min(count, Math.ceil((pixels + view) / high) + more), top: scroll + first * high - pixels};
}

// The scroll that shows a row: the one that holds where the row is seen whole, else the least move, or the middle where it is far.
function scrollToRow(row, scroll, view, count, high) {
  const pixels = rowPixels(scroll, view, count, high), top = row * high, bottom = top + high;
  if (top >= pixels && bottom <= pixels + view) return scroll;
  const far = top < pixels - view || bottom > pixels + 2 * view;
  return scrollFor(far ? top - view / 2 + high / 2 : top < pixels ? top : bottom - view, view, count, high);
}

// Whether a row has all words: by its text or its remark, and `ESC` with or without a space.
function matches(words, text, remark) {
  const whole = (text + " " + remark).toLowerCase();
  return words.every(word => whole.includes(word) || word.startsWith("esc") && whole.includes("esc " + word.slice(3)));
}

// The parts of a row: of what has no spelling in PCL what it is stands as the title.
function partsOf([, , spelled, what, effect, flags, cause]) {
  return {title: spelled || what, what: spelled ? what : "", effect, flags, cause};
}

function remarkOf([, place, spelled, what, effect]) {
  return `at ${place}${spelled ? ", " + spelled : ""}: ${what}: ${effect}`;
}

// A field's value in words, and its unit; places are told in dots, too.
function fieldText(value, [, unit, words], now) {
  const number = count => count.toLocaleString("en", {maximumFractionDigits: 2});
  if (value === null) return {shown: "none", unit: ""};
  if (Array.isArray(value)) return {shown: value.map(place => place.join(", ")).join("; ") || "none", unit: ""};
  if (typeof value === "boolean") return {shown: value ? "on" : "off", unit: ""};
  if (value in words) return {shown: words[value], unit: ""};
  if (unit === "position") return {shown: counted(value * now.page.resolution / 7200, "dot"), unit: ` (${number(value)})`};
  if (unit === "units") return {shown: number(7200 / value), unit: " per inch"};
  return {shown: number(value), unit: unit && " " + unit};
}

const counted = (count, noun) => `${count.toLocaleString("en", {maximumFractionDigits: 2})} ${noun}${Math.abs(count) === 1 ? "" : "s"}`;
const wordsOf = text => text.toLowerCase().split(" ").filter(word => word);

// The number that stands in an address behind #, of 1 up to the count, or null.
function numberIn(hash, count) {
  const found = /^#(\d{1,15})$/.exec(hash);
  return found && Number(found[1]) >= 1 ? Math.min(count, Number(found[1])) : null;
}

if (typeof module !== "undefined") module.exports = {partsOf, remarkOf, fieldText, counted, heightOf, rowPixels, scrollFor, seenRows, scrollToRow, matches, wordsOf, numberIn, MOST_PIXELS};
