"use strict";
// The page: what was chosen, the line of time, the list and the pane of fields. The canvas is in paper.js.

const LEAP = 100, PLAY_MOST = 40, NARROW = 420, OVERLAID = 64;    // the last is the flag of a command that an overlay skips
const film = new Film(data);
const state = {entry: -1, from: -1, side: -1, playing: 0, shown: [], here: -1, drawn: 0};

// The list: a row is an element that stays for as long as it is seen, so that a click is no matter of how the mouse moves.

const rowsOfList = new Map();

// In pixels: a title and two lines, or three where the list is narrow.
const rowHeight = () => at("list").clientWidth < NARROW ? 78 : 60;

function drawList() {
  const list = at("list"), high = rowHeight(), {first, end, top} = seenRows(list.scrollTop, list.clientHeight, state.shown.length, high);
  list.classList.toggle("narrow", high > 60);
  at("all").style.height = heightOf(state.shown.length, high) + "px";
  const wanted = new Set();
  for (let place = first; place < end; place++) {
    const number = state.shown[place];
    wanted.add(number);
    let row = rowsOfList.get(number);
    if (!row) {
      row = element("div", {class: "row", role: "option", id: "row-" + number}, element("p", {}, element("b"), element("em"), element("span")), element("div"));
      row.dataset.number = number;
      rowsOfList.set(number, row);
      at("all").append(row);
      fillRow(number, row);
    }
    row.style.top = top + (place - first) * high + "px";
    row.setAttribute("aria-posinset", place + 1);
    row.setAttribute("aria-setsize", state.shown.length);
    row.classList.toggle("here", number === state.here);
    row.setAttribute("aria-selected", number === state.here);
  }
  for (const [number, row] of rowsOfList) if (!wanted.has(number)) { row.remove(); rowsOfList.delete(number); }
  if (rowsOfList.has(state.here)) list.setAttribute("aria-activedescendant", "row-" + state.here);
}

async function fillRow(number, row) {
  const told = film.rowNow(number) || await film.row(number), {flags} = partsOf(told), [title, cause, what] = row.firstChild.children;
  title.textContent = partsOf(told).title;
  cause.textContent = partsOf(told).cause;
  what.textContent = partsOf(told).what;
  row.lastChild.textContent = partsOf(told).effect;
  row.title = remarkOf(told);
  row.classList.toggle("ignored", (flags & 1) !== 0);
  row.classList.toggle("wrong", (flags & 8) !== 0);
  row.classList.toggle("gone", (flags & 2) !== 0);
  row.classList.toggle("reply", (flags & 4) !== 0);
}

const MASKS = {ignored: 1, out: 6, wrong: 8};

async function choose() {
  const words = wordsOf(at("find").value), which = at("which").value, token = ++state.search;
  const marking = which === "page" ? await rowsThatMark() : null, found = [];
  for (let number = 0; number < film.rowCount; number++) {
    if (marking && !marking.has(number)) continue;
    if (words.length || which in MASKS) {
      const told = film.rowNow(number) || await film.row(number);
      if (token !== state.search) return;
      if (which in MASKS && !(partsOf(told).flags & MASKS[which]) || !matches(words, told[0], remarkOf(told))) continue;
    }
    found.push(number);
  }
  state.shown = found;
  at("count").textContent = found.length.toLocaleString("en") + " of " + film.rowCount.toLocaleString("en");
  drawList();
  showRow();
}
state.search = 0;

async function rowsThatMark() {
  const number = shownPage();
  return new Set(number < 0 ? [] : Array.from(await film.marksOf(number), entry => film.rowOf(entry)));
}

function shownPage() {
  if (state.side >= 0) return data.sides[state.side].page;
  return state.entry >= 0 ? film.page[state.entry] : -1;
}

function showRow() {
  const place = placeOf(state.here), list = at("list");
  if (state.here < 0) list.scrollTop = 0;
  else if (place >= 0) list.scrollTop = scrollToRow(place, list.scrollTop, list.clientHeight, state.shown.length, rowHeight());
  drawList();
}

function placeOf(number) {
  const place = lastUpTo(state.shown, number);
  return state.shown[place] === number ? place : -1;
}

// Moves in time

async function goTo(entry, from, side) {
  const token = ++state.drawn;
  state.entry = Math.max(-1, Math.min(film.count - 1, entry));
  state.from = from === undefined ? state.entry - 1 : from;
  state.side = side ?? (state.entry >= 0 && film.page[state.entry] < 0 ? film.sidesOf(state.entry)[0] ?? -1 : -1);
  state.here = state.entry < 0 ? -1 : film.rowOf(state.entry);
  at("slider").value = state.entry + 1;
  tellPlace();
  showRow();
  await Promise.all([tellCommand(token), tellFields(token), showPage(token)]);
  markStrip();
}

function goToRow(number) {
  const [first, last] = film.entriesOf(number);
  return goTo(last, first - 1);
}

function tellPlace() {
  const step = state.entry < 0 ? 0 : film.step[state.entry], most = film.step[film.count - 1];
  at("where").textContent = `step ${step.toLocaleString("en")} of ${most.toLocaleString("en")}`;
  at("slider").setAttribute("aria-valuetext", at("where").textContent);
}

async function tellCommand(token) {
  const told = at("told"), {entry} = state;
  if (entry < 0) {
    told.replaceChildren("Before the first command, as at power on. Point at a command or walk by j and k: the page stands as it was behind each step.");
    return;
  }
  const row = await film.row(state.here), own = film.own[entry];
  const body = own >= 0 ? await film.row(own) : null;
  if (token !== state.drawn) return;
  const {title, cause, what, effect} = partsOf(row), head = [element("code", {}, title), ...cause ? [element("em", {}, cause)] : [], ` ${what}${what && ", "}at ${row[1]}`];
  const parts = [element("div", {}, ...head), element("div", {}, effect), element("div", {class: "text"}, element("code", {}, row[0]))];
  if (body) parts.unshift(element("div", {}, `In ${film.data.stacks[film.stack[entry]].at(-1)[0]}: `, element("code", {}, body[0]), " recorded " + remarkOf(body),
    film.flags[entry] & OVERLAID ? `; ${film.data.overlaid}` : ""),
    element("div", {class: "soft"}, "which was started by"));
  told.replaceChildren(...parts);
  told.scrollTop = 0;
}

async function tellFields(token) {
  const {now, changed: others} = await film.fields(state.entry);
  if (token !== state.drawn) return;
  const rows = [["x", state.entry < 0 ? 0 : film.x[state.entry]], ["y", state.entry < 0 ? 900 : film.y[state.entry]],
    ["sheets so far", state.entry < 0 ? 0 : film.sheets[state.entry]]].map(([name, value]) => fieldRow(name, name, value, changedColumn(name), now));
  for (const [name, some] of Object.entries(now).sort()) {
    for (const [key, value] of Object.entries(some)) rows.push(fieldRow(name + "." + key, data.words[name + "." + key][0], value, others.has(name + "." + key), now));
  }
  at("fields").tBodies[0].replaceChildren(...rows);
  at("unchanged").hidden = !at("only-changed").checked || rows.some(row => row.className);
  tellStack();
}

function changedColumn(name) {
  const some = {x: film.x, y: film.y, "sheets so far": film.sheets}[name], {entry} = state;
  return entry >= 0 && some[entry] !== (entry > 0 ? some[entry - 1] : name === "y" ? 900 : 0);
}

function fieldRow(name, word, value, other, now) {
  const {shown, unit} = fieldText(value, data.words[name] || [name, name === "sheets so far" ? "" : "position", {}], now);
  const row = element("tr", {title: `${name}: ${Array.isArray(value) ? JSON.stringify(value) : value}`}, element("th", {scope: "row"}, word), element("td", {}, shown, element("small", {}, unit)));
  if (other) { row.className = "changed"; row.title += ", changed by this step"; }
  return row;
}

function tellStack() {
  const {entry} = state, stack = entry < 0 ? [] : film.data.stacks[film.stack[entry]];
  at("stack").replaceChildren(...[...stack].reverse().map(([name, row]) => {
    const button = element("button", {"data-row": row}, name + ", started by row " + (row + 1));
    return element("li", {}, button);
  }));
  at("stack-title").textContent = stack.length ? "Bodies that ran it" : "No body ran it";
  const replies = data.replies.filter(([made]) => made <= entry).slice(-20);
  at("replies").replaceChildren(...replies.map(([made, text]) => element("li", {}, element("button", {"data-entry": made}, text))));
}

// What is wrong with the stream: each finding leads to its command, and to where the cursor stood before it on the page.

function drawFindings() {
  const grave = data.findings.filter(finding => finding.grade).length;
  at("findings").hidden = !data.findings.length;
  at("findings").open = grave > 0;
  at("found").textContent = grave ? `${counted(grave, "finding")}: ${data.findings[0].sentence}` : "Nothing is wrong, but for what no dot depends on";
  at("causes").replaceChildren(...data.findings.map((finding, number) => {
    const side = finding.side === null ? "" : `side ${finding.side + 1}`, row = finding.row === null ? "" : `row ${(finding.row + 1).toLocaleString("en")}`;
    const links = [["row", row], ["side", side]].filter(([, word]) => word).map(([kind, word]) => element("button", {"data-finding": number, "data-to": kind}, word));
    return element("li", {class: ["fine", "lost", "wrong", "moved"][finding.grade]}, finding.sentence + " ", ...links, element("small", {}, " " + finding.advice));
  }));
}

async function goToFinding(number, to) {
  const {row, side} = data.findings[number];
  play(false);
  if (to === "side" || row === null) return goTo(entryOfSide(side), undefined, side);
  const [first] = film.entriesOf(row);
  await goToRow(row);
  pointOut(first);
}

// The strip of sides

function drawStrip() {
  at("strip").replaceChildren(...data.sides.map((side, number) => {
    const button = element("button", {"data-side": number, title: side.label, "aria-label": side.label});
    if (side.picture) button.append(element("img", {src: side.picture, alt: "", decoding: "async", loading: "lazy"}));
    button.append(side.sheet + " " + side.name);
    return button;
  }));
  at("strip").hidden = data.sides.length === 0;
}

function markStrip() {
  for (const button of at("strip").children) button.setAttribute("aria-pressed", Number(button.dataset.side) === state.side);
}

// The entry in which a side goes out, or its page closes.
function entryOfSide(number) {
  const side = data.sides[number];
  let entry = film.sheets.findIndex(sheets => sheets >= side.sheet);
  return side.page >= 0 ? Math.min(entry, film.pages[side.page].last) : entry;
}

// Play: a step a picture, and more of them where there are many

function play(on) {
  state.playing = on ? 1 : 0;
  at("play").setAttribute("aria-pressed", on);
  at("play").textContent = on ? "pause" : "play";
  at("play").setAttribute("aria-label", on ? "pause" : "play");
  if (on) playOn();
}

async function playOn() {
  if (state.entry >= film.count - 1) state.entry = -1;
  const by = Math.max(1, Math.floor(film.count / (60 * PLAY_MOST)));
  while (state.playing && state.entry < film.count - 1) {
    await goTo(state.entry + by, state.entry);
    await new Promise(resolve => setTimeout(resolve, 1000 / PLAY_MOST));
  }
  if (state.playing) play(false);
}

// Keys and buttons

const KEYS = {
  j: () => goTo(state.entry + 1), k: () => goTo(state.entry - 1), PageDown: () => goTo(state.entry + LEAP), PageUp: () => goTo(state.entry - LEAP),
  Home: () => goTo(-1), End: () => goTo(film.count - 1), p: () => play(!state.playing), "+": () => zoomBy(2), "=": () => zoomBy(2), "-": () => zoomBy(.5),
  0: () => zoomTo(0), 1: () => zoomTo(1 / devicePixelRatio), "/": () => at("find").focus(), g: () => toggle("show-grid"), l: () => toggle("show-loupe"),
  n: () => nextFound(1), N: () => nextFound(-1), c: () => toggle("only-changed"),
};

function toggle(name) {
  at(name).checked = !at(name).checked;
  at(name).dispatchEvent(new Event("change"));
}

// The next row that is listed, or the one before; from the last one the first again, where that is wanted.
function nextFound(step, round = true) {
  const {shown, here} = state, place = lastUpTo(shown, here), next = step > 0 ? place + 1 : shown[place] === here ? place - 1 : place;
  const found = shown[next] ?? (round ? shown[step > 0 ? 0 : shown.length - 1] : undefined);
  if (found !== undefined) goToRow(found);
}

function moveInList(event) {
  const step = {ArrowDown: 1, ArrowUp: -1}[event.key];
  if (!step) return false;
  nextFound(step, false);
  return true;
}

addEventListener("keydown", event => {
  const to = event.target, types = to.matches("input[type=search], select");
  if (event.ctrlKey || event.altKey || event.metaKey || types && event.key !== "Escape") return;
  if (types) { to.blur(); return; }
  if (to === at("list") && moveInList(event)) { event.preventDefault(); return; }
  if (to === at("slider") && !["j", "k", "p"].includes(event.key) && !["PageDown", "PageUp", "Home", "End"].includes(event.key)) return;
  const call = KEYS[event.key];
  if (!call) return;
  event.preventDefault();
  if (event.key !== "p" && state.playing) play(false);
  call();
});

function rowOfEvent(event) {
  const row = event.target.closest(".row");
  return row ? Number(row.dataset.number) : -1;
}

// A row that is pointed at is shaded; a click chooses it. What was pressed and let go over one row is a click on it.
let pressed = -1;
at("list").addEventListener("pointerdown", event => { pressed = rowOfEvent(event); });
at("list").addEventListener("pointerup", event => {
  const number = rowOfEvent(event);
  if (number >= 0 && number === pressed && event.button === 0) { play(false); goToRow(number); }
  pressed = -1;
});
at("list").addEventListener("pointermove", event => {
  const near = rowOfEvent(event);
  for (const [number, row] of rowsOfList) row.classList.toggle("near", number === near);
});
at("list").addEventListener("scroll", () => requestAnimationFrame(drawList));
at("strip").addEventListener("click", event => {
  const button = event.target.closest("button");
  if (button) goTo(entryOfSide(Number(button.dataset.side)), undefined, Number(button.dataset.side));
});
at("stack").addEventListener("click", event => { if (event.target.dataset.row) goToRow(Number(event.target.dataset.row)); });
at("replies").addEventListener("click", event => { if (event.target.dataset.entry) goTo(Number(event.target.dataset.entry)); });
at("slider").addEventListener("input", () => { play(false); goTo(Number(at("slider").value) - 1); });
for (const [name, key] of [["first", "Home"], ["back", "k"], ["play", "p"], ["on", "j"], ["last", "End"], ["less", "-"], ["fit", "0"], ["dots", "1"], ["more", "+"]]) {
  at(name).addEventListener("click", () => { if (name !== "play" && state.playing) play(false); KEYS[key](); });
}
at("causes").addEventListener("click", event => { if (event.target.dataset.to) goToFinding(Number(event.target.dataset.finding), event.target.dataset.to); });
at("only-changed").addEventListener("change", () => { at("side").classList.toggle("few", at("only-changed").checked); tellFields(state.drawn); });
at("find").addEventListener("input", choose);
at("find").addEventListener("keydown", event => { if (event.key === "Enter") { nextFound(event.shiftKey ? -1 : 1); } });
at("which").addEventListener("change", choose);
addEventListener("resize", () => { drawList(); resizePaper(); });
addEventListener("hashchange", followHash);

function followHash() {
  const number = numberIn(location.hash, film.rowCount);
  return number === null ? null : goToRow(number - 1);
}

async function begin() {
  at("facts").textContent = at("facts").title = data.facts;
  await film.load();
  at("slider").max = film.count;
  drawStrip();
  drawFindings();
  await choose();
  await (followHash() ?? (data.sides.length ? goTo(entryOfSide(0), undefined, 0) : goTo(film.count - 1)));
  document.body.dataset.ready = "yes";
}
begin();
