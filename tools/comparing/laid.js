"use strict";
// Two streams whose pages are laid over one another: the regions that differ, and the commands of both that made them. The canvas is in seen/view.js.

const state = {side: -1, region: -1, drawn: 0};
const INKS = {grey: [110, 112, 118], old: [214, 40, 40], new: [32, 70, 226], alone: [16, 18, 22]};
const SHORT = 24;     // characters of a command in the list
const NOTHING = "Choose a region, in the list or by a click on the picture.";

// Sides

async function goToSide(number, region = 0) {
  const side = data.sides[number], token = ++state.drawn;
  const [old, now] = await Promise.all([inflated(side.old), inflated(side.new)]);
  if (token !== state.drawn) return;
  const both = Uint8Array.from(old, (byte, place) => byte & now[place]), gone = Uint8Array.from(old, (byte, place) => byte & ~now[place]);
  const come = Uint8Array.from(now, (byte, place) => byte & ~old[place]), others = Uint8Array.from(old, (byte, place) => byte ^ now[place]);
  state.side = number;
  zoom = 0;
  Object.assign(picture, {bits: others, old, now, both, gone, come, width: side.width, height: side.height, stride: side.width + 7 >> 3, resolution: side.resolution});
  for (const button of at("strip").children) button.setAttribute("aria-pressed", Number(button.dataset.side) === number);
  at("regions").replaceChildren(...side.regions.map(item));
  paper.setAttribute("aria-label", `${side.label}: ${side.counts}`);
  resizePaper();
  goToRegion(region, false);
}

// Regions

function item(region, number) {
  const {left, top, right, bottom} = region.box, name = element("button", {"data-region": number}, `${left}, ${top} to ${right}, ${bottom}`);
  return element("li", {id: "region-" + number, "data-region": number}, name, element("div", {}, region.what),
    ...region.told.map(({which, command, lacks}) => element("div", {class: which}, `${which}: `, ...command ? [element("code", {}, shortened(command.command)), ` at byte ${grouped(command.byte)}`] : [lacks])));
}

const shortened = text => text.length <= SHORT ? text : text.slice(0, SHORT) + "..";

// What is told of a region: of each stream the command, where it stands, and what it does.
function sentences(region) {
  if (!region.told.length) return [element("div", {}, region.what), element("div", {class: "soft"}, `Its commands are not told: of a side those of the ${data.most} largest regions are.`)];
  const made = region.told.map(({which, shade, command, lacks}) => {
    if (!command) return element("div", {class: which}, `${which}: ${shade}, ${lacks}`);
    const within = command.in.map(body => `, in ${body}`).join("") + (command.in.length ? `, run at byte ${grouped(command.run_at)}` : "");
    return element("div", {class: which}, `${which}: ${shade} by `, element("code", {}, command.command), ` at byte ${grouped(command.byte)}${within}: ${command.name}: ${command.effect}`);
  });
  return [element("div", {}, region.what), ...made, ...region.movers.map(text => element("div", {class: "soft"}, text))];
}

const grouped = count => count.toLocaleString("en");
const regions = () => data.sides[state.side].regions;

function goToRegion(chosen, closer = true) {
  const region = regions()[chosen];
  state.region = region ? chosen : -1;
  for (const each of at("regions").children) each.classList.toggle("here", Number(each.dataset.region) === state.region);
  at("told").replaceChildren(...region ? sentences(region) : [NOTHING]);
  at("told").scrollTop = 0;
  if (region) showItem(at("region-" + chosen));
  if (region && closer) {
    at("middle").scrollIntoView({block: "nearest"});
    showBox(region.box);
  }
  drawSoon();
}

// Where the list is scrolled by itself; on a narrow screen it stands below the picture, which stays where it is.
function showItem(entry) {
  if (at("list").scrollHeight > at("list").clientHeight) entry.scrollIntoView({block: "nearest"});
}

// Brings a box into what is seen; one that would be small is made larger.
function showBox({left, top, right, bottom}) {
  const wide = right - left + 1, high = bottom - top + 1, most = Math.min(view.clientWidth / (wide * 1.5), view.clientHeight / (high * 1.5));
  const seen = (left + right) / 2 * scale() - view.scrollLeft, below = (top + bottom) / 2 * scale() - view.scrollTop;
  if (most < scale() || most > 4 * scale()) zoomTo(Math.max(Math.min(most, 8), view.clientWidth / picture.width / 2), null);
  else if (seen > 0 && below > 0 && seen < view.clientWidth && below < view.clientHeight) return;
  view.scrollLeft = (left + right) / 2 * scale() - view.clientWidth / 2;
  view.scrollTop = (top + bottom) / 2 * scale() - view.clientHeight / 2;
}

// The region of a dot that differs near a place, else the one in whose frame it is; -1 where it is in none. Of several that hold it the smallest is meant.
function regionAt(dot) {
  const near = blackNear(dot), area = ({left, top, right, bottom}) => (right - left + 1) * (bottom - top + 1);
  let best = -1;
  for (const {x, y} of near ? [near, dot] : [dot]) {
    regions().forEach(({box}, place) => {
      if (x < box.left || x > box.right || y < box.top || y > box.bottom) return;
      if (best < 0 || area(box) < area(regions()[best].box)) best = place;
    });
    if (best >= 0) break;
  }
  return best;
}

function shadeOf({x, y}) {
  const [old, now] = [picture.old, picture.now].map(bits => dotAt(bits, picture.stride, x, y));
  return old === now ? `${old ? "black" : "white"} in both` : old ? "black in the old alone" : "black in the new alone";
}

// What view.js asks for

function markDot() {
  const region = regions()[state.region];
  return region ? [(region.box.left + region.box.right) / 2, (region.box.top + region.box.bottom) / 2] : null;
}

function pointAt(event) {
  const dot = dotUnder(event), {resolution} = picture;
  at("where").textContent = dot ? `dot ${dot.x}, ${dot.y} (${(dot.x / resolution).toFixed(3)}, ${(dot.y / resolution).toFixed(3)} inches): ${shadeOf(dot)}` : "";
}

function clickAt(event) {
  const dot = dotUnder(event);
  if (!dot) return;
  const chosen = regionAt(dot);
  goToRegion(chosen, false);
  if (chosen < 0) at("told").replaceChildren(`Dot ${dot.x}, ${dot.y} is ${shadeOf(dot)}, and in no region that differs. A click on a red or blue dot, or in a frame, leads to the commands of both.`);
}

function draw() {
  const by = scale() * devicePixelRatio, left = view.scrollLeft / scale(), top = view.scrollTop / scale(), seen = seenDots(by, left, top), layer = at("layer").value;
  ink.setTransform(1, 0, 0, 1, 0, 0);
  ink.fillStyle = color("--paper");
  ink.fillRect(0, 0, paper.width, paper.height);
  const inks = {both: [[picture.both, INKS.grey], [picture.gone, INKS.old], [picture.come, INKS.new]], old: [[picture.old, INKS.alone]], new: [[picture.now, INKS.alone]]}[layer];
  for (const [bits, shade] of inks) drawDots(bits, seen, by, left, top, shade);
  ink.setTransform(by, 0, 0, by, -left * by, -top * by);
  if (at("show-grid").checked && scale() >= LEAST_GRID) drawGrid(seen, by);
  if (at("show-frames").checked) drawFrames(devicePixelRatio / by);
  const unit = {dots: 1, inches: picture.resolution}[at("unit").value];
  ruler(at("across"), left, view.clientWidth, unit, true);
  ruler(at("down"), top, view.clientHeight, unit, false);
  paper.dataset.drawn = state.side + ":" + state.region;
}

function drawFrames(line) {
  regions().forEach(({box}, place) => {
    const here = place === state.region, wide = here ? 3 * line : 1.5 * line, by = 3 * line + wide / 2;
    ink.strokeStyle = here ? "#c25e00" : "#c25e00aa";
    ink.lineWidth = wide;
    ink.strokeRect(box.left - by, box.top - by, box.right - box.left + 1 + 2 * by, box.bottom - box.top + 1 + 2 * by);
  });
}

// Keys and buttons

// The next region, or the one before, through all sides.
function nextRegion(step) {
  const place = state.region + step;
  if (place >= 0 && place < regions().length) return goToRegion(place);
  const side = (state.side + step + data.sides.length) % data.sides.length;
  return goToSide(side, step > 0 ? 0 : data.sides[side].regions.length - 1);
}

const KEYS = {
  n: () => nextRegion(1), N: () => nextRegion(-1), "+": () => zoomBy(2), "=": () => zoomBy(2), "-": () => zoomBy(.5), 0: () => zoomTo(0),
  1: () => zoomTo(1 / devicePixelRatio), g: () => at("show-grid").click(), f: () => at("show-frames").click(),
};

addEventListener("keydown", event => {
  const call = KEYS[event.key];
  if (!call || event.ctrlKey || event.altKey || event.metaKey || event.target.matches("select")) return;
  event.preventDefault();
  call();
});
for (const [name, key] of [["less", "-"], ["fit", "0"], ["dots", "1"], ["more", "+"], ["before", "N"], ["next", "n"]]) at(name).addEventListener("click", () => KEYS[key]());
for (const name of ["layer", "show-grid", "show-frames"]) at(name).addEventListener("change", drawSoon);
at("strip").addEventListener("click", event => { if (event.target.dataset.side) goToSide(Number(event.target.dataset.side)); });
at("regions").addEventListener("click", event => goToRegion(Number(event.target.closest("li").dataset.region)));
addEventListener("resize", resizePaper);

async function begin() {
  at("facts").textContent = data.facts;
  at("sheets").replaceChildren(...data.lines.map(line => element("li", {}, line)));
  at("sheets").hidden = !data.lines.length;
  at("strip").replaceChildren(...data.sides.map((side, place) => element("button", {"data-side": place, title: side.counts}, side.label)));
  if (data.sides.length) await goToSide(0);
  else at("told").textContent = "No side that both streams have differs in its dots.";
  document.body.dataset.ready = "yes";
}
begin();
