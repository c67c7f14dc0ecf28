// The page of waveforms: a table of names and values, and the picture beside it.

const RULER = 40; // heights in pixels, also in style.css
const LANE = 30;
const MOST_LANES = 2000; // rows of the table; a search finds the others
const MOST_PRINTED = 400;

const data = readData("nullsim waves 1");
const start = data.from;
const end = data.to + 1; // tick t has the room from t to t + 1
const leastSpan = Math.min(end - start, 4);

// The digit of four bits or fewer: x if one of them is X.
const digitOf = (bits) => (bits.includes("x") ? "x" : parseInt(bits, 2).toString(16));

// The hexadecimal digits of bits, of which the first digit has those left over.
function digitsOf(bits) {
  const digits = [];
  for (let end = bits.length; end > 0; end -= 4) digits.unshift(digitOf(bits.slice(Math.max(0, end - 4), end)));
  return digits.join("");
}

// The values of a bus, which begin where one of its bits changes.
function busWave(bits) {
  const ticks = [...new Set(bits.flatMap((bit) => bit.ticks))].sort((one, other) => one - other);
  const places = bits.map(() => 0);
  const values = ticks.map((tick) => {
    bits.forEach((bit, at) => {
      if (bit.ticks[places[at] + 1] === tick) places[at] += 1;
    });
    return digitsOf(bits.map((bit, at) => bit.values[places[at]]).join(""));
  });
  return { ticks, values };
}

const laneOf = (name, wave, isBus, place) => ({
  name,
  ticks: Int32Array.from(wave.ticks),
  values: wave.values,
  isBus,
  place, // in the data
  hidden: false,
  row: null,
  cell: null,
});
const all = [
  ...data.nets.map((net, place) => laneOf(net.name, net, false, place)),
  ...data.buses.map((bus, place) => laneOf(bus.name, busWave(bus.bits), true, data.nets.length + place)),
];
let order = [...all];
let lanes = []; // those of `order` that are listed now
let chosen = order[0] || null;
const state = { tick: start, from: start, until: end, a: null, b: null, lanes: null };

const view = byId("view");
const picture = byId("picture");
let pen = picture.getContext("2d"); // another one for a printer
let size = { width: 0, height: 0, ratio: 1 };
let paint = null; // colours and the hatch, read from the style when they may be new

// The value of a lane at a tick: of a net 0, 1 or X, of a bus its digits.
function valueAt(lane, tick) {
  const value = lane.values[Math.max(0, lastUpTo(lane.ticks, tick))];
  return lane.isBus ? value : value.toUpperCase();
}
const xOf = (tick) => ((tick - state.from) * size.width) / (state.until - state.from);
const tickOf = (x) => state.from + (x * (state.until - state.from)) / size.width;

// --- the table

function listLanes() {
  const wanted = byId("find").value.trim().toLowerCase().split(/\s+/);
  const fits = order.filter((lane) => !lane.hidden && wanted.some((word) => lane.name.toLowerCase().includes(word)));
  lanes = fits.slice(0, MOST_LANES);
  if (!lanes.includes(chosen)) chosen = lanes[0] || null;
  for (const lane of lanes) {
    if (lane.row) continue;
    lane.cell = element("td");
    const name = element("button", { title: lane.name }, lane.name);
    lane.row = element("tr", {}, element("th", { scope: "row" }, name), lane.cell);
    lane.row.lane = lane;
  }
  byId("rows").replaceChildren(...lanes.map((lane) => lane.row));
  lanesToAddress();
  const hidden = order.filter((lane) => lane.hidden);
  setText(byId("hiddenCount"), String(hidden.length));
  byId("hiddenList").replaceChildren(
    ...(hidden.length > 1 ? [showButton("show all", hidden)] : []),
    ...hidden.slice(0, 200).map((lane) => showButton(lane.name, [lane])),
    ...(hidden.length === 0 ? ["no net is hidden"] : []),
  );
  const cut = fits.length > lanes.length ? " (more fit: narrow the search)" : "";
  setText(byId("note"), `${lanes.length} of ${order.length} nets${cut}, ticks ${data.from} to ${data.to}`);
  update();
}

function showButton(text, which) {
  const button = element("button", {}, text);
  button.addEventListener("click", () => {
    for (const lane of which) lane.hidden = false;
    listLanes();
  });
  return button;
}

function fillTable() {
  setText(byId("captionTick"), String(state.tick));
  setText(byId("atTick"), "@" + state.tick);
  for (const lane of lanes) {
    const value = valueAt(lane, state.tick);
    setText(lane.cell, value);
    setClass(lane.cell, (lane.isBus ? "bus " : "") + (value.toUpperCase().includes("X") ? "vX" : ""));
    setChosen(lane.row, lane === chosen);
  }
  if (document.activeElement !== byId("tick")) byId("tick").value = state.tick;
  const marks = [];
  if (state.a !== null) marks.push("A " + state.a);
  if (state.b !== null) marks.push("B " + state.b);
  if (marks.length === 2) marks.push(`difference ${Math.abs(state.b - state.a)} ticks`);
  setText(byId("difference"), marks.join(", "));
  setText(byId("status"), chosen ? `tick ${state.tick}: ${chosen.name} is ${valueAt(chosen, state.tick)}` : "no net fits");
}

const redraw = onceAFrame(draw);

function update() {
  fillTable();
  redraw();
  writeAddress(state);
}

// --- moving about

function show(from, until) {
  const span = within(until - from, leastSpan, end - start);
  state.from = within(from, start, end - span);
  state.until = state.from + span;
  redraw();
  writeAddress(state);
}

function zoom(factor, around) {
  const at = within(around, state.from, state.until);
  show(at - (at - state.from) * factor, at + (state.until - at) * factor);
}

const pan = (part) => {
  const span = state.until - state.from;
  show(state.from + part * span, state.until + part * span);
};

function setTick(tick, follow = true) {
  state.tick = within(Math.floor(tick), data.from, data.to);
  const span = state.until - state.from;
  if (follow && (state.tick < state.from || state.tick + 1 > state.until)) show(state.tick + 0.5 - span / 2, state.tick + 0.5 + span / 2);
  update();
}

function toChange(direction) {
  if (!chosen) return;
  const at = lastUpTo(chosen.ticks, direction > 0 ? state.tick : state.tick - 1);
  const to = direction > 0 ? at + 1 : at;
  if (to >= 0 && to < chosen.ticks.length) setTick(chosen.ticks[to]);
}

function mark(name) {
  state[name] = state[name] === state.tick ? null : state.tick;
  update();
}

function choose(lane) {
  chosen = lane;
  const top = lanes.indexOf(lane) * LANE;
  const room = view.clientHeight - RULER - LANE;
  view.scrollTop = within(view.scrollTop, top - room, top);
  update();
}

function chooseBy(steps) {
  const at = within(lanes.indexOf(chosen) + steps, 0, lanes.length - 1);
  if (lanes[at]) choose(lanes[at]);
}

function moveLane(steps) {
  const other = lanes[lanes.indexOf(chosen) + steps];
  if (!chosen || !other) return;
  const one = order.indexOf(chosen);
  const two = order.indexOf(other);
  order.splice(one, 1);
  order.splice(two, 0, chosen);
  listLanes();
  choose(chosen);
}

function hideLane() {
  if (!chosen) return;
  const next = lanes[lanes.indexOf(chosen) + 1] || lanes[lanes.indexOf(chosen) - 1];
  chosen.hidden = true;
  chosen = next || null;
  listLanes();
}

// --- what the user does

const keys = {
  ArrowLeft: (event) => (event.shiftKey ? setTick(state.tick - 1) : pan(-0.1)),
  ArrowRight: (event) => (event.shiftKey ? setTick(state.tick + 1) : pan(0.1)),
  ArrowUp: (event) => (event.altKey ? moveLane(-1) : chooseBy(-1)),
  ArrowDown: (event) => (event.altKey ? moveLane(1) : chooseBy(1)),
  PageUp: () => chooseBy(-10),
  PageDown: () => chooseBy(10),
  Home: () => setTick(data.from),
  End: () => setTick(data.to),
  "+": () => zoom(1 / 1.5, state.tick + 0.5),
  "=": () => zoom(1 / 1.5, state.tick + 0.5),
  "-": () => zoom(1.5, state.tick + 0.5),
  0: () => show(start, end),
  n: () => toChange(1),
  p: () => toChange(-1),
  a: () => mark("a"),
  b: () => mark("b"),
  h: hideLane,
  "/": () => byId("find").focus(),
};
view.addEventListener("keydown", (event) => {
  if (typing(event) || !Object.hasOwn(keys, event.key)) return;
  event.preventDefault();
  keys[event.key](event);
});
byId("find").addEventListener("keydown", (event) => {
  if (event.key !== "Enter" && event.key !== "Escape") return;
  if (event.key === "Escape") byId("find").value = "";
  listLanes();
  view.focus();
});
byId("find").addEventListener("input", listLanes);
byId("tick").addEventListener("input", () => {
  if (byId("tick").value !== "") setTick(Number(byId("tick").value));
});
const buttons = {
  before: () => toChange(-1),
  after: () => toChange(1),
  in: keys["+"],
  out: keys["-"],
  all: keys[0],
  markA: keys.a,
  markB: keys.b,
  up: () => moveLane(-1),
  down: () => moveLane(1),
  hide: hideLane,
};
for (const [id, work] of Object.entries(buttons)) byId(id).addEventListener("click", work);
byId("rows").addEventListener("click", (event) => choose(event.target.closest("tr").lane));
view.addEventListener("scroll", redraw);

picture.addEventListener("wheel", (event) => {
  event.preventDefault();
  const pixels = event.deltaMode === 0 ? 1 : 30;
  if (event.shiftKey || Math.abs(event.deltaX) > Math.abs(event.deltaY)) {
    pan(((event.deltaX || event.deltaY) * pixels) / size.width);
  } else {
    zoom(Math.exp(event.deltaY * pixels * 0.002), tickOf(event.offsetX));
  }
}, { passive: false });

let drag = null;
picture.addEventListener("pointerdown", (event) => {
  if (event.button !== 0) return;
  drag = { x: event.clientX, y: event.clientY, from: state.from, until: state.until, top: view.scrollTop, moved: false };
  picture.setPointerCapture(event.pointerId);
});
picture.addEventListener("pointermove", (event) => {
  if (!drag) return;
  const right = event.clientX - drag.x;
  const down = event.clientY - drag.y;
  if (Math.hypot(right, down) > 4) drag.moved = true;
  if (!drag.moved) return;
  const shift = (right * (drag.until - drag.from)) / size.width;
  show(drag.from - shift, drag.until - shift);
  view.scrollTop = drag.top - down;
});
picture.addEventListener("pointerup", (event) => {
  if (drag && !drag.moved) {
    const at = Math.floor((event.offsetY - RULER + view.scrollTop) / LANE);
    if (event.offsetY > RULER && lanes[at]) chosen = lanes[at];
    setTick(tickOf(event.offsetX), false);
  }
  drag = null;
});
picture.addEventListener("pointercancel", () => (drag = null));

// --- the size, the colours, the printer, the address

// The picture is as high as its view and stays there while the table scrolls.
function settle() {
  picture.style.height = view.clientHeight + "px";
  measure();
  draw();
}
const sizes = new ResizeObserver(onceAFrame(settle)); // at once, it would call itself again
sizes.observe(view);
sizes.observe(byId("values"));
matchMedia("(prefers-color-scheme: dark)").addEventListener("change", () => {
  readPaint();
  redraw();
});
// On paper each row has a picture of its own, so that pages break between rows
// and the ruler comes again on each page.
function paperCell(lane, ratio) {
  const high = lane ? LANE : RULER;
  const canvas = element("canvas", { width: size.width * ratio, height: high * ratio });
  pen = canvas.getContext("2d");
  pen.setTransform(ratio, 0, 0, ratio, 0, lane ? -RULER * ratio : 0);
  pen.fillStyle = paint.paper;
  pen.fillRect(0, 0, size.width, RULER + LANE);
  drawRuler(RULER + LANE);
  if (lane) drawLane(lane, RULER);
  drawMark(state.a, paint.a, "A", RULER + LANE);
  drawMark(state.b, paint.b, "B", RULER + LANE);
  drawCursor(RULER + LANE);
  return element("td", { class: "onPaper" }, canvas);
}

addEventListener("beforeprint", () => {
  readPaint();
  size.width = 800;
  const ratio = lanes.length > 100 ? 1 : 2;
  byId("atTick").parentNode.append(paperCell(null, ratio));
  lanes.slice(0, MOST_PRINTED).forEach((lane) => lane.row.append(paperCell(lane, ratio)));
  lanes.slice(MOST_PRINTED).forEach((lane) => (lane.row.hidden = true));
});
addEventListener("afterprint", () => {
  document.querySelectorAll(".onPaper").forEach((cell) => cell.remove());
  for (const lane of lanes) lane.row.hidden = false;
  pen = picture.getContext("2d");
  paint = null;
  settle();
});

// Hidden and moved lanes are in the address too: the places of those shown, in
// order, such as lanes=2.0.5.
const MOST_IN_ADDRESS = 200;
function lanesToAddress() {
  const shown = order.filter((lane) => !lane.hidden).map((lane) => lane.place);
  const changed = shown.length < all.length || shown.some((place, at) => place !== at);
  state.lanes = changed && shown.length <= MOST_IN_ADDRESS ? shown.join(".") || "none" : null;
}

function lanesFromAddress() {
  const said = new URLSearchParams(location.hash.slice(1)).get("lanes");
  if (said === null || !/^(none|\d{1,7}(\.\d{1,7})*)$/.test(said)) return;
  const places = said === "none" ? [] : said.split(".").map(Number);
  const shown = [...new Set(places)].filter((place) => place < all.length).map((place) => all[place]);
  const chosenOnes = new Set(shown);
  for (const lane of all) lane.hidden = !chosenOnes.has(lane);
  order = [...shown, ...all.filter((lane) => lane.hidden)];
  listLanes();
}

function fromAddress() {
  lanesFromAddress();
  const said = readAddress(["tick", "from", "until", "a", "b"]);
  for (const name of ["a", "b"]) state[name] = said[name] === undefined ? null : within(Math.floor(said[name]), data.from, data.to);
  const from = said.from === undefined ? start : said.from;
  const until = said.until === undefined ? end : said.until;
  if (until > from) show(from, until);
  setTick(said.tick === undefined ? start : said.tick, said.from === undefined);
}
addEventListener("hashchange", fromAddress);

byId("tick").min = data.from;
byId("tick").max = data.to;
listLanes();
settle();
fromAddress();
draw();
view.focus({ preventScroll: true });
