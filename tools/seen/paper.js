"use strict";
// The page of a film on its canvas: tint, lines that lie over it, the loupe, and what made a dot. Dots and sizes are in view.js.

let resting = 0;
const REST = 120, LOUPE_DOTS = 26;

async function showPage(token) {
  const {entry, from, side} = state;
  let shown, before = null, label;
  if (side >= 0) {
    shown = await film.side(side);
    label = data.sides[side].label;
  } else {
    const open = await film.pageAt(entry);
    shown = open ? {bits: open.bits, width: open.page.width, height: open.page.height, stride: open.page.stride} : await whitePage(entry);
    if (open) before = await bitsBefore(open, from);
    label = open ? `Page ${open.number + 1}, open, ${shown.width} x ${shown.height} dots` : "No page with a mark is open";
  }
  if (token !== state.drawn) return;
  const other = shown.width !== picture.width || shown.height !== picture.height;
  const {now} = await film.fields(entry);
  if (token !== state.drawn) return;
  Object.assign(picture, {ring: null, bits: shown.bits, width: shown.width, height: shown.height, stride: shown.stride, entry, side,
    tint: before && changed(before, shown.bits, shown.stride), fields: now, resolution: side >= 0 ? resolutionOf(shown.width, shown.height) : now.page.resolution});
  at("label").textContent = label;
  paper.setAttribute("aria-label", label + (picture.tint ? "; the last step changed dots" : ""));
  if (other) resizePaper(); else drawSoon();
}

async function bitsBefore(open, from) {
  if (from >= 0 && film.page[from] === open.number) return open.page.bits(from);
  return new Uint8Array(open.bits.length);
}

async function whitePage(entry) {
  const {now} = await film.fields(entry), size = data.sizes[now.page.size], times = now.page.resolution / 300;
  const width = size.width * times, height = size.height * times, stride = width + 7 >> 3;
  return {bits: new Uint8Array(stride * height), width, height, stride};
}

function resolutionOf(width, height) {
  return Object.values(data.sizes).some(size => size.width === width && size.height === height) ? 300 : 600;
}

// The middle of what the step changed, or the cursor behind it.
function markDot() {
  const {tint} = picture;
  if (tint) return [(tint.left + tint.right + 1) * 4, (tint.top + tint.bottom + 1) / 2];
  return picture.entry >= 0 && picture.side < 0 ? [film.across[picture.entry], film.down[picture.entry]] : null;
}

// Shows where the cursor stood before an entry, in the middle of what is seen, with a ring round it.
function pointOut(entry) {
  picture.ring = [entry > 0 ? film.across[entry - 1] : 0, entry > 0 ? film.down[entry - 1] : 0];
  view.scrollLeft = picture.ring[0] * scale() - view.clientWidth / 2;
  view.scrollTop = picture.ring[1] * scale() - view.clientHeight / 2;
  drawSoon();
}

function drawRing(line) {
  if (!picture.ring) return;
  const [x, y] = picture.ring, far = 16 * line;
  ink.strokeStyle = color("--warm");
  ink.lineWidth = 3 * line;
  ink.beginPath();
  ink.arc(Math.max(far, Math.min(picture.width - far, x)), Math.max(far, Math.min(picture.height - far, y)), far, 0, 7);
  ink.stroke();
}

function draw() {
  const by = scale() * devicePixelRatio, left = view.scrollLeft / scale(), top = view.scrollTop / scale();
  ink.setTransform(1, 0, 0, 1, 0, 0);
  ink.fillStyle = color("--paper");
  ink.fillRect(0, 0, paper.width, paper.height);
  const seen = seenDots(by, left, top);
  drawDots(picture.bits, seen, by, left, top, [16, 18, 22]);
  if (picture.tint && at("show-tint").checked) drawTint(seen, by, left, top);
  ink.setTransform(by, 0, 0, by, -left * by, -top * by);
  if (at("show-grid").checked && scale() >= LEAST_GRID) drawGrid(seen, by);
  drawOverlays(by);
  drawRulers(left, top);
  paper.dataset.drawn = picture.entry + ":" + picture.side;
}

// Dots that the step changed: blue ones became black, or white where no dot is below them.
function drawTint(seen, by, left, top) {
  drawDots(picture.tint.bits, seen, by, left, top, [30, 100, 230]);
  ink.setTransform(by, 0, 0, by, -left * by, -top * by);
  ink.strokeStyle = color("--mark");
  ink.lineWidth = 1.5 / by * devicePixelRatio;
  const {tint} = picture;
  ink.strokeRect(tint.left * 8, tint.top, (tint.right - tint.left + 1) * 8, tint.bottom - tint.top + 1);
}

function drawOverlays(by) {
  const {fields, entry} = picture, {logical, margins, width, height} = outlines(fields, data.sizes[fields.page.size]);
  const same = width === picture.width && height === picture.height, line = devicePixelRatio / by;
  const box = (name, shade, dash, some) => {
    if (!at(name).checked || !same) return;
    ink.strokeStyle = shade;
    ink.lineWidth = line;
    ink.setLineDash(dash.map(part => part * line));
    ink.strokeRect(...some);
  };
  box("show-clip", "#888", [], [line / 2, line / 2, width - line, height - line]);
  box("show-logical", "#2a8f4a", [6, 4], logical);
  box("show-margins", "#b4441a", [2, 3], margins);
  ink.setLineDash([]);
  drawRing(line);
  if (!at("show-cursor").checked || entry < 0 || picture.side >= 0) return;
  const x = film.across[entry] + .5, y = film.down[entry] + .5, arm = 14 * line;
  ink.strokeStyle = "#d01818";
  ink.lineWidth = 1.5 * line;
  ink.beginPath();
  ink.moveTo(x - arm, y); ink.lineTo(x + arm, y); ink.moveTo(x, y - arm); ink.lineTo(x, y + arm);
  ink.stroke();
}

function drawRulers(left, top) {
  const unit = {dots: 1, units: picture.resolution * picture.fields.settings.unit / 7200, inches: picture.resolution}[at("unit").value];
  ruler(at("across"), left, view.clientWidth, unit, true);
  ruler(at("down"), top, view.clientHeight, unit, false);
}

// The entry that made a dot, or -1.
async function entryOf(dot) {
  const number = shownPage(), page = film.pages[number];
  if (!page) return -1;
  const patch = await page.madeBy(dot.x, dot.y, state.side >= 0 ? Infinity : state.entry);
  return patch < 0 ? -1 : page.entry[patch];
}

// Where the pointer is, and, when it rests, what made the mark that is there.
function pointAt(event) {
  const dot = dotUnder(event), where = dot ? `dot ${dot.x}, ${dot.y}; ${(dot.x / picture.resolution).toFixed(3)}, ${(dot.y / picture.resolution).toFixed(3)} inches` : "";
  drawLoupe(dot);
  paper.title = where;
  clearTimeout(resting);
  if (dot) resting = setTimeout(() => tellMark(dot, where), REST);
}

async function tellMark(dot, where) {
  const black = blackNear(dot), entry = black ? await entryOf(black) : -1;
  if (entry < 0) return;
  const row = await film.row(film.own[entry] >= 0 ? film.own[entry] : film.rowOf(entry));
  if (paper.title === where) paper.title = `${where}\n${row[0]}\n${remarkOf(row)}`;
}

async function clickAt(event) {
  const dot = dotUnder(event), black = dot && blackNear(dot), entry = black ? await entryOf(black) : -1;
  if (entry >= 0) { play(false); await goTo(entry); return; }
  if (black) at("told").prepend(element("div", {}, "The last command of the overlay made this dot, in the step in which the page closed."));
}

function drawLoupe(dot) {
  const loupe = at("loupe"), pen = loupe.getContext("2d"), by = loupe.width / LOUPE_DOTS;
  if (loupe.hidden) return;
  pen.fillStyle = color("--paper");
  pen.fillRect(0, 0, loupe.width, loupe.height);
  if (!dot) return;
  pen.fillStyle = "#101216";
  for (let line = 0; line < LOUPE_DOTS; line++) {
    for (let column = 0; column < LOUPE_DOTS; column++) {
      const x = dot.x - (LOUPE_DOTS >> 1) + column, y = dot.y - (LOUPE_DOTS >> 1) + line;
      if (x < 0 || y < 0 || x >= picture.width || y >= picture.height) { pen.fillStyle = "#8888"; } else if (dotAt(picture.bits, picture.stride, x, y)) { pen.fillStyle = "#101216"; } else continue;
      pen.fillRect(column * by, line * by, by - .5, by - .5);
    }
  }
  pen.strokeStyle = "#d01818";
  pen.strokeRect((LOUPE_DOTS >> 1) * by, (LOUPE_DOTS >> 1) * by, by, by);
}

for (const name of ["grid", "cursor", "margins", "logical", "clip", "tint", "loupe"]) {
  at("show-" + name).addEventListener("change", () => { at("loupe").hidden = !at("show-loupe").checked; drawSoon(); });
}
