"use strict";
// The page of tools/differ in a headless Chromium, with real events: node --experimental-websocket events.js FOLDER PICTURES. The folder has the pages of
// planted pairs (tools/check_compared). It prints how many things were looked at, and fails with the first that is wrong.

const assert = require("node:assert");
const {join} = require("node:path");
const {Browser} = require("../seen/browser.js");

const [,, FOLDER, PICTURES] = process.argv;
let looked = 0;

function same(found, wanted, what) {
  looked++;
  assert.deepStrictEqual(found, wanted, what);
}

const frame = browser => browser.value("new Promise(resolve => requestAnimationFrame(() => requestAnimationFrame(resolve)))");
const told = browser => browser.value("at('told').textContent");
const open = (browser, name) => browser.open(join(FOLDER, name + ".html"));
const placeOf = (browser, x, y) => browser.value(`(() => { const box = paper.getBoundingClientRect(); return [box.left + (${x} + .5) * scale() - view.scrollLeft, box.top + (${y} + .5) * scale() - view.scrollTop]; })()`);
const inkAt = (browser, x, y) => browser.value(`(() => { const [left, top] = [(${x} + .5) * scale() - view.scrollLeft, (${y} + .5) * scale() - view.scrollTop];
  return Array.from(ink.getImageData(Math.floor(left * devicePixelRatio), Math.floor(top * devicePixelRatio), 1, 1).data.slice(0, 3)); })()`);

async function clickDot(browser, x, y) {
  await browser.click(...await placeOf(browser, x, y));
  await frame(browser);
}

async function middleOf(browser, name) {
  return browser.value(`(() => { const box = ${name}.getBoundingClientRect(); return [box.left + box.width / 2, box.top + box.height / 2]; })()`);
}

// A rectangle of a macro that is ten dots wider, four times: a click on what is blue leads to the command in the macro, with its place and what it does.
async function macro(browser) {
  await open(browser, "macro");
  same(await browser.value("[data.sides.length, at('regions').children.length, at('sheets').hidden, state.region]"), [1, 4, true, 0], "four regions are listed, and the first is chosen");
  await clickDot(browser, 460, 580);
  same(await browser.value("state.region"), 1, "a click on a blue dot chooses its region");
  same(await told(browser), "0 dots only in the old, 600 only in the newold: white, no command"
    + "new: black by par *c0P at byte 24, in macro 3, run at byte 61: Fill Rectangular Area: marks 90 by 60 dots", "and tells the command of either stream");
  same(await browser.value("[at('region-1').className, document.querySelectorAll('#regions .here').length]"), ["here", 1], "its entry is the one that is marked");
  await clickDot(browser, 1060, 1600);
  same([await browser.value("state.region"), (await told(browser)).includes("at byte 37, in macro 3, run at byte 81")], [2, true], "another one by another command");
  await clickDot(browser, 1058, 1548);
  same(await browser.value("state.region"), 2, "dots near a region are of it");
  await clickDot(browser, 400, 580);
  same([await browser.value("state.region"), (await told(browser)).startsWith("Dot ") && (await told(browser)).includes("is black in both, and in no region that differs")],
    [-1, true], "a click elsewhere says so");
  await clickDot(browser, 2000, 2500);
  same((await told(browser)).includes("is white in both"), true, "on white, too");
  await browser.click(...await middleOf(browser, "at('regions').children[3].querySelector('button')"));
  await frame(browser);
  same(await browser.value("[state.region, scale() > 2, paper.dataset.drawn]"), [3, true, "0:3"], "a link of the list leads to the place");
  const seen = await browser.value("(() => { const {left, right, top, bottom} = regions()[3].box; return [left * scale() >= view.scrollLeft, right * scale() <= view.scrollLeft + view.clientWidth, top * scale() >= view.scrollTop, bottom * scale() <= view.scrollTop + view.clientHeight]; })()");
  same(seen, [true, true, true, true], "which is seen whole");
  const blue = await inkAt(browser, 460, 1580), grey = await inkAt(browser, 440, 1580), white = await inkAt(browser, 470, 1580);
  same([blue[2] > blue[0] + 80, Math.abs(grey[0] - grey[2]) < 20 && grey[0] < 160, white.every(part => part > 220)], [true, true, true], "blue, grey and white are where they should be");
  await browser.value("at('layer').value = 'old', at('layer').dispatchEvent(new Event('change'))");
  await frame(browser);
  same((await inkAt(browser, 460, 1580)).every(part => part > 220), true, "the old alone has no dot there");
  await browser.value("at('layer').value = 'new', at('layer').dispatchEvent(new Event('change'))");
  await frame(browser);
  same((await inkAt(browser, 460, 1580)).every(part => part < 60), true, "the new alone has a black one");
}

// Larger and smaller by keys, buttons and wheel, and a drag, which is no click.
async function zooms(browser) {
  await open(browser, "macro");
  await frame(browser);
  const fits = await browser.value("scale()"), [x, y] = await middleOf(browser, "at('view')");
  await browser.mouse("mouseMoved", x, y);
  for (let time = 0; time < 4; time++) await browser.key("+");
  same(await browser.value(`scale() > 6 * ${fits}`), true, "keys make it larger");
  await browser.click(...await middleOf(browser, "at('less')"));
  same(await browser.value(`scale() < 6 * ${fits} * 2 && scale() > ${fits}`), true, "buttons make it smaller");
  await browser.mouse("mouseWheel", x, y, {deltaX: 0, deltaY: -100, modifiers: 2});
  await frame(browser);
  const before = await browser.value("[view.scrollLeft, view.scrollTop, state.region]");
  await browser.mouse("mousePressed", x, y, {buttons: 1});
  for (const by of [10, 25, 40]) await browser.mouse("mouseMoved", x - by, y - by / 2, {buttons: 1});
  await browser.mouse("mouseReleased", x - 40, y - 20);
  same((await browser.value("[view.scrollLeft, view.scrollTop, state.region]")).map(Math.round), [Math.round(before[0]) + 40, Math.round(before[1]) + 20, before[2]], "a drag moves the page");
  await browser.key("0");
  same(await browser.value("scale()"), fits, "the whole page again");
  await browser.mouse("mouseMoved", ...await placeOf(browser, 460, 580));
  await browser.until("at('where').textContent.includes('black in the new alone')", 5000);
  looked++;   // what is under the pointer is told
}

// A shift is told as one, with the commands that set the place; both commands are told.
async function shift(browser) {
  await open(browser, "shift");
  const text = await told(browser);
  same([text.includes("shifted by 1 dot right, which is 1 PCL unit of 1/300 inch"), text.includes("the place is set by byte 9: par *p600X in the old, and by byte 9: par *p601X in the new")],
    [true, true], "a shift, and by what");
  same(await browser.value("at('told').querySelectorAll('code').length"), 2, "by a command of either stream");
  same(/old: (black|white) by par \*b5W [0-9A-F]+ at byte \d+: Transfer Raster Data by Row: marks /.test(text), true, "with what it does");
}

// Several sides: n goes on through all of them; sheets that are gone stand in the list.
async function sides(browser) {
  await open(browser, "sides");
  same(await browser.value("[data.sides.length, at('strip').children.length]"), [2, 2], "two sides differ");
  const seen = [];
  for (let time = 0; time < 3; time++) {
    seen.push(await browser.value("state.side + ':' + state.region"));
    await browser.key("n");
    await frame(browser);
    await browser.until(`state.side + ':' + state.region !== '${seen.at(-1)}'`);
  }
  same(seen, ["0:0", "1:0", "0:0"], "n walks through the regions of all");
  await browser.click(...await middleOf(browser, "at('strip').children[1]"));
  await browser.until("state.side === 1");
  same(await browser.value("at('strip').children[1].getAttribute('aria-pressed')"), "true", "a side is chosen by its button");
  await open(browser, "gone");
  same(await browser.value("[data.sides.length, at('sheets').textContent, at('told').textContent]"), [0, "sheet 2 of the old is gone", "No side that both streams have differs in its dots."], "a sheet that is gone");
}

// All is seen at each width, light and dark, has a name, is reached by the keyboard; and nothing is fetched.
async function reached(browser) {
  await open(browser, "macro");
  const nameless = "[...document.querySelectorAll('button, input, select, canvas[role], [role=group]')].filter(one => !(one.getAttribute('aria-label') || one.textContent.trim() || one.closest('label'))).map(one => one.outerHTML)";
  same(await browser.value(nameless), [], "everything has a name");
  same(await browser.value("performance.getEntriesByType('resource').length"), 0, "nothing is fetched");
  const passed = new Set();
  for (let time = 0; time < 24; time++) {
    await browser.key("Tab");
    passed.add(await browser.value("document.activeElement.closest('[id]')?.id"));
  }
  for (const name of ["list", "region-0", "strip", "told", "layer", "unit", "show-grid", "view"]) same(passed.has(name), true, "Tab comes to " + name);
  for (const [width, height] of [[390, 844], [1024, 768], [1440, 900]]) {
    for (const dark of [false, true]) {
      await browser.size(width, height);
      await browser.dark(dark);
      await frame(browser);
      same(await browser.value("document.documentElement.scrollWidth <= innerWidth"), true, "nothing stands beside a window of " + width);
      same(await browser.value("[at('list'), view, at('told'), at('tools')].every(one => one.clientHeight > 10 && one.getBoundingClientRect().right <= innerWidth + 1)"), true, "all is seen at " + width);
      same(await browser.value("view.clientHeight > 200 && view.clientWidth > 250"), true, "the page has room at " + width);
      same(await browser.value("(() => { const sum = shade => shade.match(/\\d+/g).slice(0, 3).reduce((all, part) => all + Number(part), 0); return Math.abs(sum(getComputedStyle(document.body).color) - sum(getComputedStyle(at('list')).backgroundColor)) > 350; })()"),
        true, "what is written can be read at " + width);
      await clickDot(browser, 460, 580);
      same(await browser.value("state.region"), 1, "a click finds its region at " + width);
      await browser.picture(join(PICTURES, `laid-${width}${dark ? "-dark" : ""}.png`));
      await clickDot(browser, 2000, 2500);
    }
  }
  await browser.size(1400, 900);
  await browser.dark(false);
}

async function main() {
  const browser = await Browser.start();
  try {
    await browser.size(1400, 900);
    for (const part of [macro, zooms, shift, sides, reached]) await part(browser);
    same(browser.errors, [], "no error was told");
  } finally {
    browser.stop();
  }
  console.log(looked);
}

main().catch(fault => { console.error(fault); process.exit(1); });
