"use strict";
// The page of tools/show in a headless Chromium, with real events: node --experimental-websocket events.js TOOLS ROOT PICTURES. It prints how many
// things were looked at, and fails with the first that is wrong.

const assert = require("node:assert");
const {spawnSync} = require("node:child_process");
const {mkdtempSync, writeFileSync, statSync, rmSync} = require("node:fs");
const {tmpdir} = require("node:os");
const {join} = require("node:path");
const {Browser} = require("./browser.js");

const [,, TOOLS, ROOT, PICTURES] = process.argv;
const FOLDER = mkdtempSync(join(tmpdir(), "shown-"));
const MACRO_OF_TWO_PAGES = "\x1bE\x1b&f1y0X\x1b*p100x100Y\x1b*c300a60b0P\x0c\x1b*p100x600Y\x1b*c0P\x1b&f1X\x1b*p0X\x1b&f2X\x0c";
const BLANK = "\x1b*p2300X\x1b*t600R\x1b*r1A\x1b*b120W" + "\0".repeat(100) + "\xff".repeat(20) + "\x1b*rC\x0c";
let looked = 0;

function same(found, wanted, what) {
  looked++;
  assert.deepStrictEqual(found, wanted, what);
}

function shown(name, stream, ...words) {
  const from = join(FOLDER, name), to = from + ".html";
  if (stream !== null) writeFileSync(from, stream, "latin1");
  const ran = spawnSync(join(TOOLS, "show"), [...words, stream === null ? join(ROOT, "examples", name) : from, to.replaceAll("streams/", "").replaceAll("drivers/", "")],
    {encoding: "utf8"});
  if (ran.status) throw new Error(ran.stderr);
  return to.replaceAll("streams/", "").replaceAll("drivers/", "");
}

const settled = browser => browser.until("Number(paper.dataset.drawn.split(':')[0]) === state.entry");
const boxOf = (browser, name) => browser.value(`(() => { const box = ${name}.getBoundingClientRect(); return [box.left, box.top, box.width, box.height]; })()`);

async function middleOf(browser, name) {
  const [left, top, wide, high] = await boxOf(browser, name);
  return [left + wide / 2, top + high / 2];
}

// The page does not jump under the pointer: what is pointed at is what a click chooses, also where the mouse moves by a pixel while it is pressed.
async function clicks(browser, path) {
  await browser.open(path);
  await browser.key("Home");
  await settled(browser);
  await browser.until("document.getElementById('row-9') && at('list').scrollTop === 0");
  const before = await boxOf(browser, "at('list')"), told = await boxOf(browser, "at('told')");
  for (const [row, byX, byY] of [[2, 0, 0], [5, 1, 0], [9, 0, 1], [3, 1, 1], [7, -1, 0]]) {
    const [x, y] = await middleOf(browser, `document.getElementById("row-${row}")`);
    await browser.mouse("mouseMoved", x, y);
    await browser.mouse("mouseMoved", x + 3, y);
    same(await browser.value(`Number(document.elementFromPoint(${x}, ${y}).closest(".row").dataset.number)`), row, "the row that is pointed at");
    await browser.click(x, y, byX, byY);
    await settled(browser);
    same(await browser.value("state.here"), row, "the row that was clicked");
    same(await boxOf(browser, "at('list')"), before, "the list stays where it is");
    same(await boxOf(browser, "at('told')"), told, "and so does what is told above the page");
  }
}

// The second page of a macro with a form feed can be opened, by steps and by its side.
async function pagesOfMacros(browser, path) {
  await browser.open(path);
  const row = await browser.value("film.rowOf(film.count - 3)"), entries = await browser.value(`film.entriesOf(${row})`);
  await browser.value(`goTo(${entries[0]})`);
  const pages = new Set();
  for (let entry = entries[0]; entry <= entries[1]; entry++) {
    await settled(browser);
    pages.add(await browser.value("state.entry >= 0 ? film.page[state.entry] : -1"));
    await browser.key("j");
  }
  same([...pages].sort(), [-1, 0, 1], "both pages are passed");
  for (const side of [0, 1]) {
    await browser.click(...await middleOf(browser, `at("strip").children[${side}]`));
    await browser.until(`paper.dataset.drawn.endsWith(":${side}")`);
    same(await browser.value("picture.bits.some(byte => byte)"), true, "a side has its dots");
  }
  same(await browser.value("data.sides.map(side => side.page)"), [0, 1], "each side has its page");
}

// A mark inside of a macro tells the recorded command.
async function marks(browser, path) {
  await browser.open(path);
  await browser.click(...await middleOf(browser, "at('strip').children[1]"));
  await browser.until("paper.dataset.drawn.endsWith(':1')");
  const [x, y] = await browser.value("(() => { const box = paper.getBoundingClientRect(); return [box.left + 200 * scale(), box.top + 765 * scale()]; })()");
  await browser.mouse("mouseMoved", x, y);
  await browser.until("paper.title.includes('Fill Rectangular Area')", 5000);
  looked++;   // a mark that is pointed at tells its command
  await browser.click(x, y);
  await browser.until("state.side < 0");
  await settled(browser);
  same(await browser.value("at('told').textContent.includes('In macro 1: par *c0P recorded at')"), true, "the recorded command is told");
  same(await browser.value("at('stack').children.length"), 1, "the body is told");
  same(await browser.value("picture.tint !== null && picture.tint.top"), 750, "what it changed is tinted");
}

async function addresses(browser, path) {
  for (const [hash, row] of [["#foo", null], ["#5", 4], ["#0", null], ["#99999", "last"]]) {
    await browser.open(path, hash);
    const last = await browser.value("film.rowCount - 1");
    if (row !== null) same(await browser.value("state.here"), row === "last" ? last : row, "the row of " + hash);
    same(browser.errors, [], "an address makes no error: " + hash);
  }
}

async function time(browser, path) {
  await browser.open(path);
  const entry = () => browser.value("state.entry"), keys = [];
  for (const key of ["Home", "j", "j", "k", "PageDown", "PageUp", "PageUp", "End", "k"]) {
    await browser.key(key);
    keys.push(await entry());
  }
  const most = await browser.value("film.count - 1");
  same(keys, [-1, 0, 1, 0, 100, 0, -1, most, most - 1], "keys walk through the steps");
  const [left, top, wide, high] = await boxOf(browser, "at('slider')");
  await browser.click(left + wide * .5, top + high / 2);
  await browser.until(`Math.abs(state.entry - ${most / 2}) < ${most / 20}`, 5000);
  looked++;   // the slider walks to its middle
  await browser.mouse("mouseMoved", left + wide * .5, top + high / 2);
  await browser.mouse("mousePressed", left + wide * .5, top + high / 2, {buttons: 1});
  for (const part of [.4, .3, .2]) await browser.mouse("mouseMoved", left + wide * part, top + high / 2, {buttons: 1});
  await browser.mouse("mouseReleased", left + wide * .2, top + high / 2);
  await browser.until(`Math.abs(state.entry - ${most * .2}) < ${most / 15}`, 5000);
  looked++;   // and is drawn back
  await browser.key("Home");
  await browser.key("p");
  await browser.until("state.entry > 5");
  await browser.key("p");
  const paused = await entry();
  await new Promise(resolve => setTimeout(resolve, 200));
  same([await entry() - paused <= 1, await browser.value("state.playing")], [true, 0], "it plays, and pauses");
  await browser.value("goTo(film.x.findIndex((x, place) => place > 0 && x !== film.x[place - 1]))");
  same(await browser.value("[...at('fields').querySelectorAll('tr.changed th')].map(one => one.textContent)"), ["x"], "what changed stands in bold");
}

async function zooms(browser, path) {
  await browser.open(path);
  await browser.value("goTo(film.pages[0].last - 3)");
  await settled(browser);
  const fits = await browser.value("scale()");
  for (let time = 0; time < 7; time++) await browser.key("+");
  same(await browser.value("scale() >= 4 && scale() > 8 * " + fits), true, "dots can be seen");
  await browser.value("new Promise(resolve => requestAnimationFrame(() => requestAnimationFrame(resolve)))");
  const [wide, high] = await browser.value("[view.clientWidth, view.clientHeight]");
  await browser.value(`view.scrollLeft = film.across[state.entry] * scale() - ${wide / 3}, view.scrollTop = film.down[state.entry] * scale() - ${high / 2}`);
  await browser.value("new Promise(resolve => requestAnimationFrame(() => requestAnimationFrame(resolve)))");
  await browser.picture(join(PICTURES, "dots.png"));
  const scroll = await browser.value("[view.scrollLeft, view.scrollTop]");
  await browser.click(...await middleOf(browser, "at('view')"));
  await browser.key("l");
  await browser.mouse("mouseMoved", ...await middleOf(browser, "at('view')"));
  same(await browser.value("at('loupe').hidden"), false, "the loupe is there");
  same(scroll.every(place => place > 0), true, "the middle stays in the middle");
  for (const unit of ["units", "inches", "dots"]) await browser.value(`at('unit').value = '${unit}', at('unit').dispatchEvent(new Event('change'))`);
  await browser.key("l");
  await browser.key("0");
  same(await browser.value("scale()"), fits, "the whole page again");
}

async function finds(browser, path) {
  await browser.open(path);
  for (const [text, least] of [["*t", 1], ["ESC*t", 1], ["resolution", 1], ["ESC E", 2]]) {
    await browser.key("/");
    await browser.value("at('find').value = ''");
    await browser.type(text);
    await browser.until(`state.shown.length < film.rowCount && state.shown.length >= ${least}`);
    same(await browser.value("document.activeElement.id"), "find", "the find field has the focus");
    await browser.key("Enter");
    await browser.until("state.shown.includes(state.here)", 5000);
    looked++;   // Enter goes to what was found
    await browser.key("Escape");
  }
}

// Everything has a name, is reached by the keyboard, and is seen at any width.
async function reached(browser, path) {
  await browser.open(path);
  const nameless = "[...document.querySelectorAll('button, input, select, canvas[role], [role=listbox], [role=group]')].filter(one => "
    + "!one.hidden && !(one.getAttribute('aria-label') || one.textContent.trim() || one.closest('label'))).map(one => one.outerHTML)";
  same(await browser.value(nameless), [], "everything has a name");
  await browser.value("at('list').focus()");
  await browser.key("ArrowDown");
  await settled(browser);
  await browser.key("ArrowDown");
  await settled(browser);
  same(await browser.value("document.getElementById(at('list').getAttribute('aria-activedescendant')).getAttribute('aria-selected')"), "true", "the chosen row is told");
  const seen = new Set();
  for (let time = 0; time < 40; time++) {
    await browser.key("Tab");
    seen.add(await browser.value("document.activeElement.id || document.activeElement.parentElement.id"));
    if (time === 3) same(await browser.value("getComputedStyle(document.activeElement).outlineStyle !== 'none'"), true, "the focus is seen");
  }
  for (const name of ["list", "find", "which", "strip", "slider", "play", "unit", "show-grid", "view"]) same(seen.has(name), true, "Tab comes to " + name);
  for (const [width, height] of [[360, 640], [768, 1024], [1150, 800], [1400, 900], [3000, 1600]]) {
    await browser.size(width, height);
    await browser.value("new Promise(resolve => requestAnimationFrame(() => requestAnimationFrame(resolve)))");
    same(await browser.value("document.documentElement.scrollWidth <= innerWidth"), true, "nothing stands beside a window of " + width);
    same(await browser.value("[at('list'), at('view'), at('told'), at('slider')].every(one => one.clientHeight > 10 && one.getBoundingClientRect().right <= innerWidth + 1)"), true,
      "all is seen at " + width);
    same(await browser.value("view.clientHeight > 90 && view.clientWidth > 150"), true, "the page has room at " + width);
    await browser.picture(join(PICTURES, `width-${width}.png`));
  }
  await browser.size(1400, 900);
  const light = await browser.value("getComputedStyle(document.body).backgroundColor");
  await browser.dark(true);
  same(await browser.value("getComputedStyle(document.body).backgroundColor") !== light, true, "it is dark where it is wanted dark");
  await browser.picture(join(PICTURES, "dark.png"));
  await browser.dark(false);
}

// Why a page is blank stands on top: it leads to the command, whose row says that its value is none, and to the place on the page.
async function causes(browser, path) {
  await browser.open(path);
  same(await browser.value("[at('findings').hidden, at('findings').open, data.findings.length]"), [false, true, 2], "what is found is shown");
  same(await browser.value("at('causes').firstChild.textContent.startsWith('Prints 1 side, and it is blank: it sends ESC*t600R at byte 8')"), true, "the cause of the blank page first");
  await browser.click(...await middleOf(browser, "at('causes').querySelector('button')"));
  await browser.until("state.here === 1");
  await browser.until("rowsOfList.get(1).querySelector('em').textContent === 'no such value'");
  same(await browser.value("rowsOfList.get(1).classList.contains('wrong') && rowsOfList.get(1).querySelector('b').textContent"), "ESC*t600R", "the row is flagged, in HP's spelling");
  await browser.click(...await middleOf(browser, "at('causes').children[1].querySelector('button')"));
  await browser.until("picture.ring && picture.ring[0] === 2375");
  looked++;   // and the place on the page is pointed out
  await browser.click(...await middleOf(browser, "at('causes').querySelector('[data-to=side]')"));
  await browser.until("state.side === 0");
  looked++;   // the side, too
  await browser.value("at('which').value = 'wrong', at('which').dispatchEvent(new Event('change'))");
  await browser.until("state.shown.length === 2");
  looked++;   // those that something is found of
  await browser.value("at('which').value = 'all', at('which').dispatchEvent(new Event('change'))");
  for (const [width, height] of [[390, 844], [1024, 768], [1440, 900]]) {
    await browser.size(width, height);
    for (const row of [1, 3]) {
      await browser.value(`goToRow(${row})`);
      await settled(browser);
      same(await browser.value("at('told').clientHeight % parseFloat(getComputedStyle(at('told')).lineHeight)"), 0, "the box cuts no line at " + width);
      same(await browser.value("at('command').getBoundingClientRect().right <= innerWidth && at('middle').scrollWidth <= innerWidth"), true, "and stands in the window of " + width);
    }
    await browser.value("new Promise(resolve => requestAnimationFrame(() => requestAnimationFrame(resolve)))");
    same(await browser.value("[...rowsOfList.values()].every(row => row.lastChild.scrollHeight <= row.lastChild.clientHeight || innerWidth > 400)"), true, "effects are whole at " + width);
    await browser.picture(join(PICTURES, `blank-${width}.png`));
  }
  await browser.size(1024, 768);
  same(await browser.value("at('middle').clientWidth * at('middle').clientHeight > innerWidth * innerHeight / 2"), true, "the page has the larger half");
  await browser.size(1400, 900);
  await browser.value("goToRow(0)");
  await browser.key("c");
  await browser.until("[...at('fields').rows].filter(row => row.offsetHeight).map(row => row.cells[0].textContent).join() === 'x'");
  looked++;   // what changed alone
  await browser.key("c");
}

// Keys and buttons make it larger about the mark, or about the pointer; a drag moves the page, and chooses no command.
async function moves(browser, path) {
  await browser.open(path);
  await browser.value("goTo(film.pages[0].last - 3)");
  await settled(browser);
  await browser.mouse("mouseMoved", 5, 5);
  for (let time = 0; time < 5; time++) await browser.click(...await middleOf(browser, "at('more')"));
  const at1 = await browser.value("(() => { const [x, y] = markDot(); return [x * scale() - view.scrollLeft, y * scale() - view.scrollTop, view.clientWidth, view.clientHeight]; })()");
  same(at1[0] > 0 && at1[0] < at1[2] && at1[1] > 0 && at1[1] < at1[3], true, "the mark is seen");
  const [x, y] = await middleOf(browser, "at('view')"), dot = `(() => { const box = paper.getBoundingClientRect(); return [(${x} - box.left + view.scrollLeft) / scale(), (${y} - box.top + view.scrollTop) / scale()].map(Math.round); })()`;
  await browser.mouse("mouseMoved", x, y);
  const under = await browser.value(dot);
  await browser.key("+");
  const now = await browser.value(dot);
  same(Math.abs(now[0] - under[0]) <= 1 && Math.abs(now[1] - under[1]) <= 1, true, "the dot under the pointer stays there");
  const entry = await browser.value("state.entry"), [left, top] = await browser.value("[view.scrollLeft, view.scrollTop]");
  await browser.mouse("mousePressed", x, y, {buttons: 1});
  for (const by of [10, 25, 40]) await browser.mouse("mouseMoved", x - by, y - by / 2, {buttons: 1});
  await browser.mouse("mouseReleased", x - 40, y - 20);
  same(await browser.value("[Math.round(view.scrollLeft), Math.round(view.scrollTop), state.entry]"), [Math.round(left) + 40, Math.round(top) + 20, entry], "a drag moves the page");
}

async function large(browser) {
  const many = shown("many", "\x1b*p1X\x1b*p2X".repeat(500000));
  await browser.open(many);
  same(await browser.value("film.rowCount"), 1000001, "a million commands");
  const [x, y] = await middleOf(browser, "at('list')");
  await browser.value("at('list').scrollTop = at('list').scrollHeight");
  await browser.until("rowsOfList.has(film.rowCount - 1)");
  const [, top,, high] = await boxOf(browser, "document.getElementById('row-1000000')"), list = await boxOf(browser, "at('list')");
  same(top + high <= list[1] + list[3] + 1 && top > list[1], true, "the last one is seen");
  await browser.click(x, top - 5);
  await settled(browser);
  same(await browser.value("state.here"), 999999, "and the one before is clicked");
  await browser.key("Home");
  await browser.key("End");
  await settled(browser);
  same(await browser.value("rowsOfList.has(film.rowCount - 1)"), true, "End goes to the last");
  await browser.value("at('list').scrollTop = at('list').scrollHeight / 2");
  await browser.until("Math.min(...rowsOfList.keys()) < 600000 && ![...rowsOfList.values()].some(row => !row.firstChild.textContent)");
  const first = await browser.value("Math.min(...rowsOfList.keys())");
  await browser.mouse("mouseWheel", x, y, {deltaX: 0, deltaY: 100});
  await browser.until(`Math.min(...rowsOfList.keys()) > ${first}`);
  looked++;
  console.log(`a million commands: a page of ${(statSync(many).size / 1e6).toFixed(1)} MB`);
  await browser.picture(join(PICTURES, "million.png"));
}

// Pictures to be looked at: a letter, duplex, macros with an overlay, and 600 dots per inch.
async function pictures(browser) {
  for (const [name, path] of [["letter", "streams/letter.pcl"], ["duplex", "streams/short-edge-duplex.prn"], ["overlay", "streams/letterhead-and-stamps.pcl"],
    ["fine", "streams/rings-and-rules-at-600.prn"]]) {
    await browser.open(shown(path, null));
    await browser.value("goTo(data.sides.length > 1 ? film.pages[1].entry[film.pages[1].entry.length >> 1] : film.pages[0].entry[film.pages[0].entry.length >> 1])"
      .replaceAll("film.pages[1].entry", "Array.from(film.pages[1].entry)").replace("goTo", "Promise.all(film.pages.map(page => page.load())).then(() => goTo").concat(")"));
    await settled(browser);
    await browser.picture(join(PICTURES, name + ".png"));
  }
}

async function main() {
  const browser = await Browser.start();
  try {
    await browser.size(1400, 900);
    const letter = shown("streams/letter.pcl", null), macro = shown("macro", MACRO_OF_TWO_PAGES), overlay = shown("streams/letterhead-and-stamps.pcl", null);
    await clicks(browser, overlay);
    await pagesOfMacros(browser, macro);
    await marks(browser, macro);
    await addresses(browser, overlay);
    await time(browser, letter);
    await zooms(browser, letter);
    await finds(browser, shown("streams/raster-by-each-method.pcl", null));
    await reached(browser, overlay);
    await causes(browser, shown("blank", BLANK));
    await moves(browser, letter);
    await pictures(browser);
    await large(browser);
    same(browser.errors, [], "no error was told");
  } finally {
    browser.stop();
    rmSync(FOLDER, {recursive: true, force: true});
  }
  console.log(looked + " things looked at in a browser");
}

main().catch(fault => { console.error(fault); process.exit(1); });
