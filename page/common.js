// What all pages use. Text of the data becomes text of the page by textContent
// or as a text node, never as HTML.

const byId = (id) => document.getElementById(id);

// A fault of the data or of this script is shown in the page, and not only in
// the console.
window.addEventListener("error", (event) => {
  byId("fault").hidden = false;
  byId("fault").textContent = "This page stopped: " + event.message;
});

function readData(form) {
  const data = JSON.parse(byId("data").textContent);
  if (data.form !== form) throw new Error("the data doesn't have the form " + form);
  return data;
}

// element("td", {class: "value"}, "1", otherElement): strings become text.
function element(tag, attributes = {}, ...children) {
  return filled(document.createElement(tag), attributes, children);
}

function svg(tag, attributes = {}, ...children) {
  return filled(document.createElementNS("http://www.w3.org/2000/svg", tag), attributes, children);
}

function filled(made, attributes, children) {
  for (const [name, value] of Object.entries(attributes)) made.setAttribute(name, value);
  made.append(...children);
  return made;
}

function setText(node, text) {
  if (node.textContent !== text) node.textContent = text;
}

function setClass(node, names) {
  if (node.className !== names) node.className = names;
}

function setChosen(row, yes) {
  if ((row.className === "chosen") === yes) return;
  row.className = yes ? "chosen" : "";
  row.setAttribute("aria-current", String(yes));
}

const within = (number, low, high) => Math.min(high, Math.max(low, number));

// The place of the last of the first `count` numbers that is at most `limit`,
// or -1. The numbers rise.
function lastUpTo(numbers, limit, count = numbers.length) {
  let low = 0;
  let high = count;
  while (low < high) {
    const middle = (low + high) >>> 1;
    if (numbers[middle] <= limit) low = middle + 1;
    else high = middle;
  }
  return low - 1;
}

// Cuts the first `count` changes of a waveform into stretches between the
// ticks `from` and `until`, drawn `width` wide: part(left, right, value), where
// the value is "busy" if changes are less than LEAST pixels apart.
// The time depends on the width, not on the number of changes.
const LEAST = 2;
function stretches(ticks, values, count, from, until, width, part) {
  const scale = width / (until - from);
  let at = Math.max(0, lastUpTo(ticks, from, count));
  let left = 0;
  let busyFrom = -1;
  while (left < width && at < count) {
    const next = at + 1 < count ? ticks[at + 1] : Infinity;
    const right = Math.min(width, (next - from) * scale);
    if (right - left >= LEAST || right >= width) {
      if (busyFrom >= 0) part(busyFrom, left, "busy");
      busyFrom = -1;
      part(left, right, values[at]);
      left = right;
      at += 1;
    } else {
      if (busyFrom < 0) busyFrom = left;
      left = Math.min(width, left + LEAST);
      at = lastUpTo(ticks, from + left / scale, count);
    }
  }
  if (busyFrom >= 0) part(busyFrom, left, "busy");
}

// The state in the address, such as #tick=14&from=0&until=40. Only numbers of
// these names are taken, and anything else is ignored.
function readAddress(names) {
  const said = new URLSearchParams(location.hash.slice(1));
  const state = {};
  for (const name of names) {
    const word = said.get(name);
    if (word !== null && /^\d{1,9}(\.\d{1,6})?$/.test(word)) state[name] = Number(word);
  }
  return state;
}

// Browsers allow few changes of the address in a second, so it follows late.
let addressTimer = 0;
function writeAddress(state) {
  clearTimeout(addressTimer);
  addressTimer = setTimeout(() => {
    const words = Object.entries(state)
      .filter(([, value]) => value !== null)
      .map(([name, value]) => name + "=" + (typeof value === "number" ? Number(value.toFixed(3)) : value));
    history.replaceState(null, "", "#" + words.join("&"));
  }, 300);
}

// Calls work once before the next frame, after any number of requests.
function onceAFrame(work) {
  let asked = false;
  return () => {
    if (asked) return;
    asked = true;
    requestAnimationFrame(() => {
      asked = false;
      work();
    });
  };
}

// Keys are taken where the focus isn't in a field or on a button that needs them.
function typing(event) {
  return event.ctrlKey || event.metaKey || /^(INPUT|SELECT|TEXTAREA)$/.test(event.target.tagName);
}
