// The picture of the waveforms: only what is in view is drawn.

function readPaint() {
  const style = getComputedStyle(document.body);
  paint = {};
  for (const name of ["paper", "ink", "soft", "line", "wave", "one", "x", "xpaper", "cursor", "chosen", "a", "b"]) {
    paint[name] = style.getPropertyValue("--" + name).trim();
  }
  const tile = element("canvas", { width: 8, height: 8 });
  const brush = tile.getContext("2d");
  brush.fillStyle = paint.xpaper;
  brush.fillRect(0, 0, 8, 8);
  brush.strokeStyle = paint.x;
  brush.lineWidth = 1.4;
  brush.beginPath();
  for (const shift of [-8, 0, 8]) {
    brush.moveTo(shift - 1, 9);
    brush.lineTo(shift + 9, -1);
  }
  brush.stroke();
  paint.hatch = pen.createPattern(tile, "repeat");
}

function measure() {
  size = { width: picture.clientWidth, height: picture.clientHeight, ratio: devicePixelRatio || 1 };
  const { width, height, ratio } = size;
  picture.width = Math.round(width * ratio);
  picture.height = Math.round(height * ratio);
}

function draw() {
  if (!paint) readPaint();
  pen.setTransform(size.ratio, 0, 0, size.ratio, 0, 0);
  pen.fillStyle = paint.paper;
  pen.fillRect(0, 0, size.width, size.height);
  const top = RULER - view.scrollTop;
  const first = Math.max(0, Math.floor(view.scrollTop / LANE));
  const last = Math.min(lanes.length - 1, Math.floor((view.scrollTop + size.height - RULER) / LANE));
  const bottom = Math.min(size.height, top + lanes.length * LANE);
  pen.save();
  pen.beginPath();
  pen.rect(0, RULER, size.width, size.height - RULER);
  pen.clip();
  const place = lanes.indexOf(chosen);
  if (place >= first && place <= last) {
    pen.fillStyle = paint.chosen;
    pen.fillRect(0, top + place * LANE, size.width, LANE);
  }
  pen.restore();
  drawRuler(bottom);
  pen.save();
  pen.beginPath();
  pen.rect(0, RULER, size.width, size.height - RULER);
  pen.clip();
  for (let at = first; at <= last; at += 1) drawLane(lanes[at], top + at * LANE);
  pen.restore();
  drawMark(state.a, paint.a, "A", bottom);
  drawMark(state.b, paint.b, "B", bottom);
  drawCursor(bottom);
}

// The step between numbers of the ruler: 1, 2 or 5 times a power of ten.
function rulerStep(room) {
  const ticks = ((state.until - state.from) * room) / size.width;
  const power = 10 ** Math.floor(Math.log10(Math.max(1, ticks)));
  return Math.max(1, [1, 2, 5, 10].find((factor) => factor * power >= ticks) * power);
}

function drawRuler(bottom) {
  const step = rulerStep(76);
  pen.font = "13px system-ui, sans-serif";
  pen.textBaseline = "middle";
  pen.textAlign = "left";
  pen.strokeStyle = paint.line;
  pen.fillStyle = paint.soft;
  pen.lineWidth = 1;
  pen.beginPath();
  for (let tick = Math.ceil(state.from / step) * step; tick <= state.until; tick += step) {
    const x = Math.round(xOf(tick)) + 0.5;
    pen.moveTo(x, 22);
    pen.lineTo(x, bottom);
    pen.fillText(String(tick), x + 4, 29);
  }
  pen.moveTo(0, RULER - 0.5);
  pen.lineTo(size.width, RULER - 0.5);
  pen.stroke();
}

// Draws a net by rectangles of whole pixels, which are painted many times faster
// than a stroked path. All of one colour come together, since setting a colour
// takes longer than filling.
function drawNet(lane, top) {
  const high = top + 6;
  const low = top + LANE - 8;
  const tall = low - high + 2;
  const boxes = { 1: [], x: [], busy: [] };
  const lines = [];
  let level = null; // where the line is; null after a box
  stretches(lane.ticks, lane.values, lane.ticks.length, state.from, state.until, size.width, (from, to, value) => {
    const left = Math.round(from);
    const wide = Math.round(to) - left;
    const boxed = value === "x" || value === "busy";
    if (value !== "0") boxes[value].push(left, wide);
    if (left > 0 && value !== "busy" && !(boxed && level === null)) lines.push(left - 1, high, 2, tall);
    if (!boxed) lines.push(left, value === "1" ? high : low, wide, 2);
    level = boxed ? null : value;
  });
  fillBoxes(paint.one, boxes[1], high, tall);
  fillBoxes(paint.hatch, boxes.x, high, tall);
  pen.globalAlpha = 0.5;
  fillBoxes(paint.wave, boxes.busy, high, tall);
  pen.globalAlpha = 1;
  pen.fillStyle = paint.wave;
  for (let at = 0; at < lines.length; at += 4) pen.fillRect(lines[at], lines[at + 1], lines[at + 2], lines[at + 3]);
}

function drawCursor(bottom) {
  const x = xOf(state.tick);
  const wide = Math.max(1, xOf(state.tick + 1) - x);
  if (x + wide < 0 || x > size.width) return;
  pen.globalAlpha = wide > 3 ? 0.16 : 1;
  pen.fillStyle = paint.cursor;
  pen.fillRect(x, RULER, wide > 3 ? wide : 1.5, bottom - RULER);
  pen.globalAlpha = 1;
  flag(x + wide / 2, String(state.tick), paint.cursor);
}

function drawMark(tick, colour, name, bottom) {
  if (tick === null) return;
  const x = Math.round(xOf(tick)) + 0.5;
  if (x < 0 || x > size.width) return;
  pen.strokeStyle = colour;
  pen.lineWidth = 2;
  pen.setLineDash([5, 4]);
  pen.beginPath();
  pen.moveTo(x, 18);
  pen.lineTo(x, bottom);
  pen.stroke();
  pen.setLineDash([]);
  flag(x, name, colour);
}

function flag(x, text, colour) {
  pen.font = "bold 13px system-ui, sans-serif";
  const wide = pen.measureText(text).width + 12;
  const left = within(x - wide / 2, 0, size.width - wide);
  pen.fillStyle = colour;
  pen.beginPath();
  pen.roundRect(left, 1, wide, 18, 4);
  pen.fill();
  pen.fillStyle = paint.paper;
  pen.textAlign = "center";
  pen.textBaseline = "middle";
  pen.fillText(text, left + wide / 2, 10.5);
}

// Draws a bus as boxes, with the digits of its value where they fit.
function drawBus(lane, top) {
  const high = top + 6;
  const low = top + LANE - 8;
  const tall = low - high + 2;
  const busy = [];
  const unknown = [];
  const lines = [];
  const labels = [];
  stretches(lane.ticks, lane.values, lane.ticks.length, state.from, state.until, size.width, (from, to, value) => {
    const left = Math.round(from);
    const wide = Math.round(to) - left;
    if (value === "busy") {
      busy.push(left, wide);
      return;
    }
    if (value.includes("x")) unknown.push(left, wide);
    lines.push([left, high, wide, 2], [left, low, wide, 2]);
    if (left > 0) lines.push([left - 1, high, 2, tall]);
    if (wide > 8 * value.length + 8) labels.push([value, left + 5]);
  });
  fillBoxes(paint.hatch, unknown, high, tall);
  pen.globalAlpha = 0.5;
  fillBoxes(paint.wave, busy, high, tall);
  pen.globalAlpha = 1;
  pen.fillStyle = paint.wave;
  for (const line of lines) pen.fillRect(...line);
  pen.fillStyle = paint.ink;
  pen.font = "13px ui-monospace, \"DejaVu Sans Mono\", monospace";
  pen.textAlign = "left";
  pen.textBaseline = "middle";
  for (const [value, left] of labels) pen.fillText(value, left, high + tall / 2);
}

function fillBoxes(colour, boxes, high, tall) {
  pen.fillStyle = colour;
  for (let at = 0; at < boxes.length; at += 2) pen.fillRect(boxes[at], high, boxes[at + 1], tall);
}

function drawLane(lane, top) {
  if (lane.isBus) drawBus(lane, top);
  else drawNet(lane, top);
}
