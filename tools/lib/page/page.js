// The program of the page: a list that is searched, a picture that is moved and zoomed and whose boxes open, and details of what is chosen.
"use strict";
const { folder, verdict, roots, modules, boxes, imports } = JSON.parse(document.getElementById("data").textContent);
const byId = (id) => document.getElementById(id);
const canvas = byId("picture");
const context = canvas.getContext("2d");
const after = modules.map(() => []);
const before = modules.map(() => []);
for (const edge of imports) {
  after[edge[0]].push(edge);
  before[edge[1]].push(edge);
}
const shown = new Shown(modules, boxes, imports, roots);
/** So many modules are listed at most. */
const MOST = 400;
/** A search opens the boxes of what it finds where no more modules than these stand in them. */
const MOST_OPENED = 1000;
const view = { x: 0, y: 0, scale: 1 };
let chosen = -1;
let near = new Set();
let matches = new Set();

// Texts

function sizeText(bytes) {
  return bytes < 1024 ? `${bytes} B` : bytes < 1048576 ? `${(bytes / 1024).toFixed(1)} KB` : `${(bytes / 1048576).toFixed(1)} MB`;
}

function countText(count, what) {
  return `${count} ${what}${count === 1 ? "" : "s"}`;
}

function totalsOf(box) {
  return shown.totals[box - modules.length];
}

function totalsText(box) {
  const { count, size, errors } = totalsOf(box);
  return [countText(count, "module"), ...(size > 0 ? [sizeText(size)] : []), ...(errors > 0 ? [`${errors} with errors`] : [])].join(", ");
}

function nameOf(it) {
  return shown.isBox(it) ? boxes[it - modules.length].name : modules[it].name;
}

/** The name of a module in its box, whose folder it leaves out. */
function labelOf(it) {
  const { box, specifier, name } = modules[it];
  return box >= 0 && boxes[box].folder !== "" ? specifier.slice(boxes[box].folder.length) : name;
}

function hasError(it) {
  return shown.isBox(it) ? totalsOf(it).errors > 0 : modules[it].error !== undefined;
}

function isRoot(it) {
  return shown.isBox(it) ? totalsOf(it).isRoot : shown.roots.has(it);
}

// The list

function button(it, note, act = () => choose(it, true)) {
  const made = document.createElement("button");
  made.className = "module" + (hasError(it) ? " error" : "") + (it === chosen ? " chosen" : "");
  made.textContent = nameOf(it);
  if (note) made.append(" ", element("span", note, "note"));
  made.onclick = act;
  const item = document.createElement("li");
  item.append(made);
  return item;
}

function element(name, text, className) {
  const it = document.createElement(name);
  it.textContent = text;
  if (className) it.className = className;
  return it;
}

/** The words that are searched. */
function wanted() {
  return byId("search").value.toLowerCase().split(/\s+/).filter((it) => it !== "");
}

function foundModules(words) {
  return modules.flatMap((it, place) => (words.every((word) => it.specifier.toLowerCase().includes(word)) ? [place] : []));
}

/** Shows what is found, and opens the boxes that it stands in. */
function search() {
  const words = wanted();
  if (words.length > 0 && chosen >= 0) choose(-1, false);
  const found = words.length > 0 ? foundModules(words) : [];
  matches = new Set(found);
  const around = new Set(found.flatMap((it) => shown.around(it)));
  const inner = [...around].filter((it) => shown.within.get(it).some((one) => !shown.isBox(one)));
  const count = inner.reduce((sum, it) => sum + shown.within.get(it).length, 0);
  const wasOpen = shown.found.size > 0;
  shown.found = count <= MOST_OPENED ? around : new Set();
  if (wasOpen || shown.found.size > 0) shown.lay();
  list();
  if (shown.found.size > 0) fit(found);
  else if (wasOpen) showAll();
  else draw();
}

function list() {
  const isSearching = wanted().length > 0;
  const tops = (shown.within.get(-1) ?? []).filter((it) => shown.isBox(it));
  const found = isSearching ? [...matches] : tops.length > 0 ? tops : modules.map((_, place) => place);
  const items = found.slice(0, MOST).map((it) => (shown.isBox(it) ? button(it, totalsText(it), () => openAt(it)) : button(it)));
  if (found.length > MOST) items.push(element("li", `${found.length - MOST} more`, "note"));
  byId("list").replaceChildren(...items);
  const size = modules.reduce((sum, it) => sum + (it.size || 0), 0);
  const all = countText(modules.length, "module");
  const which = isSearching ? `${matches.size} of ${all}` : `${all}, ${sizeText(size)}`;
  const said = element("span", `${which} in ${folder || "no common folder"}. `);
  byId("summary").replaceChildren(said, element("span", verdict, verdict === "valid" ? "" : "error"));
}

// What is chosen

function choose(it, isMoving) {
  chosen = it;
  if (it >= 0 && !shown.isBox(it)) {
    const closed = shown.around(it).filter((box) => !shown.isOpen(box));
    closed.forEach((box) => shown.open.add(box));
    if (closed.length > 0) shown.lay();
  }
  near = new Set(shown.edges.flatMap((edge) => (isOfChosen(edge.from) ? [edge.to] : isOfChosen(edge.to) ? [edge.from] : [])));
  const mark = it < 0 || shown.isBox(it) ? "" : "#" + encodeURIComponent(modules[it].specifier);
  history.replaceState(null, "", location.pathname + location.search + mark);
  details();
  if (isMoving && it >= 0) center(it);
  list();
  draw();
}

/** Whether a thing is chosen, or stands in a chosen box. */
function isOfChosen(it) {
  return chosen >= 0 && (it === chosen || (shown.isBox(chosen) && shown.around(it).includes(chosen)));
}

/** Opens or closes a box, whose head stays under the pointer: it moves to the left as far as what has opened needs, and not up or down. */
function toggle(box) {
  const { x, y } = shown.rects.get(box);
  const isOpen = shown.isOpen(box);
  shown.found.delete(box);
  if (isOpen) shown.open.delete(box);
  else shown.open.add(box);
  shown.lay();
  const now = shown.rects.get(box);
  view.x += (x - now.x) * view.scale;
  view.y += (y - now.y) * view.scale;
  choose(box, false);
  const [left, room] = [view.x + now.x * view.scale, canvas.parentElement.clientWidth];
  const beyond = left + now.width * view.scale + 20 - room;
  if (isOpen || beyond <= 0) return;
  view.x -= Math.max(0, Math.min(beyond, left - 20));
  draw();
}

/** Opens a box, and the boxes around it, and moves there. */
function openAt(box) {
  [...shown.around(box), box].forEach((it) => shown.open.add(it));
  shown.lay();
  choose(box, false);
  fit([box]);
}

function closeAll() {
  shown.open.clear();
  shown.found.clear();
  shown.lay();
  choose(-1, false);
  showAll();
}

function details() {
  const panel = byId("details");
  panel.hidden = chosen < 0;
  if (chosen >= 0) panel.replaceChildren(...(shown.isBox(chosen) ? partsOfBox() : partsOfModule()));
  resize();
}

function section(title, items) {
  if (items.length === 0) return [];
  const made = document.createElement("ul");
  made.append(...items);
  return [element("h3", title), made];
}

function partsOfModule() {
  const it = modules[chosen];
  const parts = [element("h2", it.name), element("div", it.specifier, "note")];
  parts.push(element("div", [it.kind, it.size === undefined ? "" : sizeText(it.size)].filter((one) => one).join(", ")));
  if (it.error) parts.push(element("p", it.error, "error"));
  const note = (edge) => (edge[2] === "code" ? "" : edge[2]);
  parts.push(...section("A shortest way to it", wayTo(chosen).map((place) => button(place))));
  parts.push(...section(`Imports ${after[chosen].length}`, after[chosen].map((edge) => button(edge[1], note(edge)))));
  parts.push(...section("Leads nowhere", it.broken.map(([text, error]) => element("li", `${text}: ${error}`, "error"))));
  const place = (edge) => `${edge[4]}:${edge[5]} ${note(edge)}`;
  parts.push(...section(`Imported by ${before[chosen].length}`, before[chosen].map((edge) => button(edge[0], place(edge)))));
  return parts;
}

function partsOfBox() {
  const inside = shown.modulesOf(chosen);
  const parts = [element("h2", nameOf(chosen)), element("div", totalsText(chosen))];
  const act = element("button", shown.isOpen(chosen) ? "Close" : "Open", "act");
  act.onclick = () => toggle(chosen);
  parts.push(act);
  const ends = (edges, end) => {
    const counts = new Map();
    for (const edge of edges) counts.set(edge[end], (counts.get(edge[end]) ?? 0) + edge.count);
    return [...counts].sort(([, one], [, other]) => other - one).map(([it, count]) => button(it, countText(count, "import")));
  };
  const leaving = shown.edges.filter((it) => isOfChosen(it.from) && !isOfChosen(it.to));
  const coming = shown.edges.filter((it) => isOfChosen(it.to) && !isOfChosen(it.from));
  parts.push(...section("Imports", ends(leaving, "to")), ...section("Imported by", ends(coming, "from")));
  const failing = inside.filter((it) => modules[it].error || modules[it].broken.length > 0);
  parts.push(...section("With errors", failing.slice(0, MOST).map((it) => button(it))));
  parts.push(...section("Modules", inside.slice(0, MOST).map((it) => button(it))));
  if (inside.length > MOST) parts.push(element("div", `${inside.length - MOST} more`, "note"));
  return parts;
}

function wayTo(place) {
  const from = new Map(roots.map((it) => [it, -1]));
  const queue = [...from.keys()];
  for (const at of queue) {
    for (const edge of after[at]) {
      if (from.has(edge[1])) continue;
      from.set(edge[1], at);
      queue.push(edge[1]);
    }
  }
  const way = [];
  for (let at = from.has(place) ? place : -1; at >= 0; at = from.get(at)) way.unshift(at);
  return way;
}

// What the reader does

let held;
canvas.onpointerdown = (event) => {
  held = { x: event.clientX, y: event.clientY, isMoved: false };
  canvas.setPointerCapture(event.pointerId);
};
canvas.onpointermove = (event) => {
  if (held === undefined) return;
  held.isMoved ||= Math.hypot(event.clientX - held.x, event.clientY - held.y) > 3;
  view.x += event.movementX;
  view.y += event.movementY;
  draw();
};
canvas.onpointerup = (event) => {
  const isClick = held !== undefined && !held.isMoved;
  held = undefined;
  if (!isClick) return;
  const it = shown.at((event.offsetX - view.x) / view.scale, (event.offsetY - view.y) / view.scale) ?? -1;
  if (it >= 0 && shown.isBox(it)) toggle(it);
  else choose(it, false);
};
canvas.addEventListener("wheel", (event) => {
  event.preventDefault();
  zoom(Math.exp(-event.deltaY / 400), event.offsetX, event.offsetY);
}, { passive: false });
byId("in").onclick = () => zoom(1.4);
byId("out").onclick = () => zoom(1 / 1.4);
byId("all").onclick = showAll;
byId("close").hidden = boxes.length === 0;
byId("close").onclick = closeAll;
byId("search").oninput = search;
window.onresize = resize;

resize();
showAll();
list();
const first = modules.findIndex((it) => location.hash === "#" + encodeURIComponent(it.specifier));
if (first >= 0) choose(first, true);
