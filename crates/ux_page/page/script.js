"use strict";
// One file object, description, process or path is a row; its key is its kind and its number or name. A moment is the rows that are there
// when so many calls were made: the rows of the start, and for each call those that changed and the keys of those that went.
const runs = JSON.parse(document.getElementById("runs").textContent);
const errors = JSON.parse(document.getElementById("errors").textContent);
const find = (selector, within = document) => within.querySelector(selector);
const [slider, search, shown, told, picture] = ["#slider", "#search", "#shown", "#told", "#picture"].map((name) => find(name));
const STEP = 64;
let run = 0;
let moment = 0;

const keyOf = (row) => row.kind + " " + (row.kind === "process" ? row.pid : row[row.kind]);

// ---- moments

function rowsAt(count) {
  const kept = (runs[run].kept ??= [new Map(runs[run].start.map((row) => [keyOf(row), row]))]);
  while (kept.length * STEP <= count) kept.push(changed(kept[kept.length - 1], (kept.length - 1) * STEP, kept.length * STEP));
  const from = Math.floor(count / STEP);
  return changed(kept[from], from * STEP, count);
}

function changed(rows, from, to) {
  const now = new Map(rows);
  for (const call of runs[run].calls.slice(from, to)) {
    for (const row of call.rows) now.set(keyOf(row), row);
    for (const key of call.gone) now.delete(key);
  }
  return now;
}

// ---- boxes

function element(name, className, ...parts) {
  const made = document.createElement(name);
  if (className) made.className = className;
  made.append(...parts);
  return made;
}

const plural = (count, word) => `${count} ${word}${count === 1 ? "" : "s"}`;

function processBox(row, before) {
  const old = new Map((before?.numbers ?? []).map((number) => [number.fd, number]));
  const lines = row.numbers.map((number) => {
    const same = before && JSON.stringify(old.get(number.fd)) === JSON.stringify(number);
    const line = element("span", same || !before ? "number" : "number changed", `${number.fd}${number.cloexec ? " close-on-exec" : ""}`);
    line.dataset.to = `description ${number.description}`;
    old.delete(number.fd);
    return line;
  });
  const lost = [...old.values()].map((number) => element("span", "number gone", String(number.fd)));
  return element("section", "box", element("b", "", `process ${row.pid}`), ...lines, ...lost);
}

function messageLine(message) {
  const passed = message.passes.map((description) => {
    const right = element("span", "passed", "right");
    right.dataset.right = `description ${description}`;
    return right;
  });
  return element("div", "message", element("span", "", `${plural(message.n, "byte")} of call ${message.call}`), ...passed);
}

function socketParts(socket) {
  const parts = [];
  if (socket.name !== "u") parts.push(element("div", "", socket.name));
  const shut = socket.read_shut && socket.write_shut ? "both" : socket.read_shut ? "reading" : socket.write_shut ? "writing" : "";
  if (shut) parts.push(element("div", "note", shut === "both" ? "shut down" : `shut down for ${shut}`));
  if (socket.reset) parts.push(element("div", "note", "ECONNRESET is pending"));
  if (socket.backlog !== null) parts.push(element("div", "", `listens; ${socket.pending.length} of ${socket.backlog} wait`));
  if (socket.association !== null) parts.push(element("div", "note", `sends to description ${socket.association}`));
  return parts.concat(socket.messages.map(messageLine));
}

function descriptionBox(row) {
  const target = row.target;
  const isFile = "object" in target;
  const what = isFile ? `file, ${{ r: "read only", w: "write only", rw: "read and write" }[target.mode] ?? target.mode}` : `${target.type} socket`;
  const title = element("b", "", `${row.description}: ${what}`);
  const facts = [plural(row.references, "reference"), ...(row.nonblock ? ["non-blocking"] : []), ...(isFile ? [`offset ${target.offset}`] : []), ...(target.append ? ["append"] : [])];
  const box = element("section", "box", title, element("div", "note", facts.join(", ")), ...(isFile ? [] : socketParts(target)));
  if (isFile) box.dataset.to = `object ${target.object}`;
  if (!isFile && target.peer !== null) box.dataset.peer = `description ${target.peer}`;
  return box;
}

function objectBox(row, paths) {
  const names = paths.filter((path) => path.object === row.object).map((path) => element("div", "", path.path));
  const size = row.size === null || row.size === undefined ? [] : [element("div", "note", plural(row.size, "byte"))];
  return element("section", "box", element("b", "", `file object ${row.object}: ${row.type}`), ...names, ...size);
}

function pathBox(row) {
  const box = element("section", "box", element("b", "", "path"), element("div", "", row.path));
  box.dataset.to = `description ${row.description}`;
  return box;
}

// ---- the picture

function boxOf(row, before, paths) {
  if (row.kind === "process") return processBox(row, before);
  if (row.kind === "description") return descriptionBox(row);
  return row.kind === "object" ? objectBox(row, paths) : pathBox(row);
}

function column(title, kinds, now, before, call) {
  const paths = [...now.values()].filter((row) => row.kind === "path");
  const gone = (call?.gone ?? []).map((key) => before.get(key)).filter(Boolean);
  const all = [...[...now.values()].map((row) => [row, ""]), ...gone.map((row) => [row, "gone"])];
  const changes = new Set((call?.rows ?? []).map(keyOf));
  const rank = (row) => kinds.indexOf(row.kind) * 1e9 + Number(row.pid ?? row[row.kind] ?? 0);
  const wanted = all.filter(([row]) => kinds.includes(row.kind) && !(row.kind === "path" && "object" in row));
  wanted.sort(([one], [other]) => rank(one) - rank(other) || 0);
  const boxes = wanted.map(([row, state]) => {
    const box = boxOf(row, before.get(keyOf(row)), paths);
    box.classList.toggle("gone", state === "gone");
    box.classList.toggle("changed", changes.has(keyOf(row)));
    box.dataset.key = keyOf(row);
    return box;
  });
  return element("div", "", element("h2", "", title), ...boxes);
}

function lines() {
  const svg = document.createElementNS("http://www.w3.org/2000/svg", "svg");
  const origin = picture.getBoundingClientRect();
  const places = new Map([...picture.querySelectorAll(".box[data-key]")].map((box) => [box.dataset.key, box]));
  const side = (box, right) => {
    const place = box.getBoundingClientRect();
    return [(right ? place.right : place.left) - origin.left, place.top + Math.min(place.height / 2, 14) - origin.top];
  };
  const draw = (from, key, kind, bulge) => {
    const to = places.get(key);
    if (!to || from.closest(".gone")) return;
    const [x, y] = side(from, true);
    const [u, v] = side(to, bulge);
    const path = document.createElementNS(svg.namespaceURI, "path");
    const reach = bulge ? 24 + Math.abs(v - y) / 8 : Math.max(20, Math.abs(u - x) / 2);
    path.setAttribute("d", `M${x} ${y}C${x + reach} ${y} ${bulge ? u + reach : u - reach} ${v} ${u} ${v}`);
    path.setAttribute("class", kind);
    svg.append(path);
  };
  for (const from of picture.querySelectorAll("[data-to]")) draw(from, from.dataset.to, "", from.dataset.key?.startsWith("path"));
  for (const from of picture.querySelectorAll("[data-right]")) draw(from, from.dataset.right, "right", true);
  for (const from of picture.querySelectorAll("[data-peer]")) if (from.dataset.key < from.dataset.peer) draw(from, from.dataset.peer, "peer", true);
  picture.append(svg);
}

// A call, and which errors it may have in the order in which they are looked for.
function describe(call, number) {
  if (!call) return [element("p", "", "Before the first call.")];
  const text = element("p", "", element("b", "", `Call ${number}: `), textOf(items()[number]));
  const order = (errors[call.word] ?? []).map((error) => element("li", call.error && error.includes(call.error) ? "answered" : "", error));
  return order.length ? [text, element("p", "note", "Its errors, in the order in which they are looked for:"), element("ol", "", ...order)] : [text];
}

function draw() {
  const call = runs[run].calls[moment - 1];
  const [before, now] = [rowsAt(Math.max(0, moment - 1)), rowsAt(moment)];
  told.replaceChildren(...describe(call, moment - 1));
  picture.replaceChildren(
    column("Processes and their numbers", ["process"], now, before, call),
    column("Open file descriptions", ["description"], now, before, call),
    column("File objects and paths", ["object", "path"], now, before, call),
  );
  lines();
}

// ---- going from call to call

const items = (of = run) => [...find(`#run-${of} .calls`).children];
const textOf = (item) => item?.lastChild.textContent;

function go(to, scrolls = true) {
  const list = items();
  moment = Math.max(0, Math.min(to, list.length));
  slider.max = list.length;
  slider.value = moment;
  shown.textContent = `${moment} of ${list.length}`;
  find(".here")?.classList.remove("here");
  const here = list[moment - 1];
  here?.classList.add("here");
  if (scrolls) (here ?? list[0])?.scrollIntoView({ block: "nearest" });
  if (here) history.replaceState(null, "", `#${here.id}`);
  draw();
}

function choose(number) {
  run = number;
  for (const [at, section] of document.querySelectorAll(".run").entries()) section.classList.toggle("shown", at === run);
}

function openHash() {
  const item = document.getElementById(location.hash.slice(1));
  if (!item?.matches(".calls li")) return false;
  choose(Number(item.closest(".run").id.slice(4)));
  go(items().indexOf(item) + 1);
  return true;
}

function lookFor(step) {
  const list = items();
  const words = search.value.toLowerCase();
  const matches = list.map((item) => words !== "" && item.textContent.toLowerCase().includes(words));
  list.forEach((item, at) => item.classList.toggle("found", matches[at]));
  if (!step || !matches.includes(true)) return;
  let at = moment - 1;
  do at = (at + step + list.length) % list.length; while (!matches[at]);
  go(at + 1);
}

const KEYS = { ArrowRight: 1, ArrowDown: 1, ArrowLeft: -1, ArrowUp: -1, PageDown: 10, PageUp: -10, Home: -Infinity, End: Infinity };

document.addEventListener("keydown", (event) => {
  if (event.target === search) return event.key === "Enter" ? lookFor(event.shiftKey ? -1 : 1) : event.key === "Escape" && search.blur();
  if (event.ctrlKey || event.metaKey || event.altKey) return undefined;
  if (event.key === "/") search.focus();
  else if (event.key in KEYS && event.target.tagName !== "SELECT") go(moment + KEYS[event.key]);
  else return undefined;
  return event.preventDefault();
});
document.addEventListener("click", (event) => {
  const item = event.target.closest(".calls li");
  if (!item) return;
  event.preventDefault();
  go(items().indexOf(item) + 1, false);
});
slider.addEventListener("input", () => go(Number(slider.value)));
search.addEventListener("input", () => lookFor(0));
window.addEventListener("hashchange", openHash);
window.addEventListener("resize", draw);

// Of each outcome but the first: the call at which it parts from that.
function tellParting() {
  for (const at of runs.keys()) {
    if (at === 0) continue;
    const first = items(0);
    const part = items(at).findIndex((item, number) => textOf(item) !== textOf(first[number]));
    find(`#run-${at} h2`).after(element("p", "note", part < 0 ? "ends where the first goes on" : `parts from the first at call ${part}`));
  }
  const choice = find("#choice");
  choice.hidden = runs.length < 2;
  choice.append(...runs.map((made, at) => new Option(find(`#run-${at} h2`).textContent, at)));
  choice.addEventListener("change", () => { choose(Number(choice.value)); go(items().length); });
}

document.body.classList.add("live");
tellParting();
choose(0);
if (!openHash()) go(items().length);
