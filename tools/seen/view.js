"use strict";
// A page of dots on its canvas, which can be seen as large as one likes: sizes, dots, rulers, and what is under the pointer. A page that has it draws by
// `draw`, says by `markDot` what zooming goes about, and by `pointAt` and `clickAt` what the pointer is about.

const at = name => document.getElementById(name);
const view = at("view"), paper = at("paper"), ink = paper.getContext("2d");
const picture = {bits: null, width: 0, height: 0, stride: 0, resolution: 300};
const pointer = {x: null, y: null};    // on the screen, while it is on the page
let zoom = 0, asked = 0;      // CSS pixels a dot; 0 is the whole page. A picture is drawn once a frame.
const RULER = 22, LEAST_GRID = 4, SMALLEST = 1 / 64, LARGEST = 32;
const blocks = document.createElement("canvas");

function element(name, values, ...inside) {
  const made = document.createElement(name);
  for (const [key, value] of Object.entries(values || {})) made.setAttribute(key, value);
  made.append(...inside);
  return made;
}

// Sizes

function scale() {
  return zoom || Math.min(view.clientWidth / picture.width, view.clientHeight / picture.height);
}

// About a place of the screen; without one about the pointer where it is on the page, else about the mark, which comes to the middle where it is not seen.
function zoomTo(wanted, x = pointer.x, y = pointer.y) {
  const before = scale(), box = view.getBoundingClientRect(), mark = x === null ? markDot() : null, middle = [box.width / 2, box.height / 2];
  let [left, top] = x === null ? middle : [x - box.left, y - box.top], dotX = (view.scrollLeft + left) / before, dotY = (view.scrollTop + top) / before;
  if (mark) {
    [dotX, dotY] = mark;
    [left, top] = [dotX * before - view.scrollLeft, dotY * before - view.scrollTop];
    if (left < 0 || top < 0 || left > box.width || top > box.height) [left, top] = middle;
  }
  zoom = wanted && Math.max(SMALLEST, Math.min(LARGEST, wanted));
  resizePaper();
  view.scrollLeft = dotX * scale() - left;
  view.scrollTop = dotY * scale() - top;
  drawSoon();
}

function zoomBy(times, x, y) {
  zoomTo(2 ** Math.round(Math.log2(scale()) + Math.log2(times)), x, y);
}

function resizePaper() {
  at("room").style.width = Math.max(1, Math.round(picture.width * scale())) + "px";
  at("room").style.height = Math.max(1, Math.round(picture.height * scale())) + "px";
  sized(paper, Math.min(view.clientWidth, Math.ceil(picture.width * scale())), Math.min(view.clientHeight, Math.ceil(picture.height * scale())));
  sized(at("across"), view.clientWidth, RULER);
  sized(at("down"), 40, view.clientHeight);
  drawSoon();
}

function sized(canvas, width, height) {
  canvas.style.width = width + "px";
  canvas.style.height = height + "px";
  canvas.width = Math.max(1, Math.round(width * devicePixelRatio));
  canvas.height = Math.max(1, Math.round(height * devicePixelRatio));
}

function drawSoon() {
  asked ||= requestAnimationFrame(() => { asked = 0; if (picture.bits) draw(); });
}

const color = name => getComputedStyle(document.documentElement).getPropertyValue(name).trim();

// What is seen of the page: its first dot, and how many.
function seenDots(by, left, top) {
  const seen = {left: Math.floor(left / 8) * 8, top: Math.floor(top / 8) * 8};
  seen.wide = Math.min(picture.width - seen.left, paper.width / by + 16);
  seen.high = Math.min(picture.height - seen.top, paper.height / by + 16);
  return seen;
}

// Dots as blocks about as large as a pixel of the screen.
function drawDots(bits, seen, by, left, top, [red, green, blue]) {
  const side = by >= .75 ? 1 : by >= .375 ? 2 : by >= .19 ? 4 : 8, {made, across, down} = shades(bits, picture.stride, seen.left, seen.top, Math.ceil(seen.wide), Math.ceil(seen.high), side);
  if (!across || !down) return;
  const image = new ImageData(across, down), words = image.data;
  for (let place = 0; place < made.length; place++) {
    if (!made[place]) continue;
    words[4 * place] = red; words[4 * place + 1] = green; words[4 * place + 2] = blue; words[4 * place + 3] = made[place];
  }
  blocks.width = across;
  blocks.height = down;
  blocks.getContext("2d").putImageData(image, 0, 0);
  ink.imageSmoothingEnabled = side * by < 1;
  ink.setTransform(1, 0, 0, 1, 0, 0);
  ink.drawImage(blocks, (seen.left - left) * by, (seen.top - top) * by, across * side * by, down * side * by);
}

function drawGrid(seen, by) {
  ink.strokeStyle = "#8886";
  ink.lineWidth = 1 / by;
  ink.beginPath();
  for (let x = seen.left; x <= seen.left + seen.wide; x++) { ink.moveTo(x, seen.top); ink.lineTo(x, seen.top + seen.high); }
  for (let y = seen.top; y <= seen.top + seen.high; y++) { ink.moveTo(seen.left, y); ink.lineTo(seen.left + seen.wide, y); }
  ink.stroke();
}

function ruler(canvas, from, long, unit, across) {
  const pen = canvas.getContext("2d"), by = scale();
  pen.setTransform(devicePixelRatio, 0, 0, devicePixelRatio, 0, 0);
  pen.clearRect(0, 0, canvas.width, canvas.height);
  pen.fillStyle = pen.strokeStyle = color("--soft");
  pen.font = "10px system-ui, sans-serif";
  pen.beginPath();
  for (const {place, label} of ticks(from, from + long / by, by, unit)) {
    const to = (place - from) * by;
    if (across) { pen.moveTo(to, 14); pen.lineTo(to, RULER); pen.fillText(label, to + 2, 12); } else { pen.moveTo(32, to); pen.lineTo(40, to); pen.fillText(label, 2, to + 10); }
  }
  pen.stroke();
}

// What is under the pointer

function dotUnder(event) {
  const box = paper.getBoundingClientRect(), x = Math.floor((event.clientX - box.left + view.scrollLeft) / scale()), y = Math.floor((event.clientY - box.top + view.scrollTop) / scale());
  return x >= 0 && y >= 0 && x < picture.width && y < picture.height ? {x, y} : null;
}

// A black dot near a place, that under it first; dots that are smaller than a pixel are hard to hit.
function blackNear({x, y}, bits = picture.bits) {
  const reach = Math.min(24, Math.ceil(1.5 / scale()));
  let best = null, least = Infinity;
  for (let line = Math.max(0, y - reach); line <= Math.min(picture.height - 1, y + reach); line++) {
    for (let dot = Math.max(0, x - reach); dot <= Math.min(picture.width - 1, x + reach); dot++) {
      const far = (dot - x) ** 2 + (line - y) ** 2;
      if (far < least && dotAt(bits, picture.stride, dot, line)) { best = {x: dot, y: line}; least = far; }
    }
  }
  return best;
}

// A drag moves the page; what is let go where it was pressed is a click. A finger moves it as any page.
let down = null;
view.addEventListener("pointerdown", event => {
  if (event.button === 0 && event.pointerType !== "touch") down = {x: event.clientX, y: event.clientY, left: view.scrollLeft, top: view.scrollTop, moves: false};
});
view.addEventListener("pointerup", event => {
  if (down ? !down.moves : event.pointerType === "touch") clickAt(event);
  down = null;
  view.classList.remove("moves");
});
view.addEventListener("pointercancel", () => { down = null; view.classList.remove("moves"); });
view.addEventListener("pointermove", event => {
  Object.assign(pointer, {x: event.clientX, y: event.clientY});
  if (down && (down.moves ||= Math.hypot(event.clientX - down.x, event.clientY - down.y) >= 5)) {
    if (!view.classList.contains("moves")) { view.setPointerCapture(event.pointerId); view.classList.add("moves"); }
    view.scrollLeft = down.left - event.clientX + down.x;
    view.scrollTop = down.top - event.clientY + down.y;
    return;
  }
  pointAt(event);
});
view.addEventListener("pointerleave", () => { pointer.x = pointer.y = null; });
view.addEventListener("scroll", drawSoon);
view.addEventListener("wheel", event => {
  if (!event.ctrlKey) return;
  event.preventDefault();
  zoomBy(event.deltaY < 0 ? 2 : .5, event.clientX, event.clientY);
}, {passive: false});
at("unit").addEventListener("change", drawSoon);
new ResizeObserver(resizePaper).observe(view);
matchMedia("(prefers-color-scheme: dark)").addEventListener("change", drawSoon);
