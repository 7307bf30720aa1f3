// The picture: what is seen of the graph, drawn at its place and scale.
"use strict";
const LETTERS = 34;
const COLORS = { ground: "#f7f8fb", ink: "#1c2330", error: "#b3261e", line: "#9aa5b8", leaving: "#1d6f42", coming: "#a0521d" };
const FILLS = { chosen: "#ffe9a8", found: "#fff6d6", error: "#fbe3e1", box: "#e8eef9", module: "#ffffff", frame: "rgba(90, 110, 150, 0.07)" };
/** So many edges at most say how many imports they stand for: those that stand for the most. */
const MOST_NUMBERS = 80;
/** The size of such a number with the room beside it, and at which parts of its curve it may stand, the best first. */
const NUMBER = { digit: 6, side: 3, height: 11, parts: [0.25, 0.5, 0.75, 0.15, 0.35, 0.65, 0.85, 0.1, 0.9, 0.05, 0.95] };
/** The least scale at which the name of a module, of a box and of a number of imports can be read. */
const READ = { module: 0.35, box: 0.22, number: 0.3 };
/** So many modules that a search has found have their names at a smaller scale, too. */
const MOST_NAMES = 40;
/** About how wide a letter of such a name is. */
const FOUND_LETTER = 8;
/** More edges of what is chosen than these are thin and faint, so that boxes are seen between them. */
const FEW_NEAR = 60;
/** How clear a box is of which nothing is chosen or found. */
const FAINT = 0.35;
const FONT = "system-ui, sans-serif";

function draw() {
  const ratio = devicePixelRatio || 1;
  context.setTransform(ratio, 0, 0, ratio, 0, 0);
  context.clearRect(0, 0, canvas.width, canvas.height);
  context.translate(view.x, view.y);
  context.scale(view.scale, view.scale);
  for (const it of shown.things) if (isFrame(it)) frame(it);
  const [plain, chosenOnes] = [shown.edges.filter((it) => !isAtChosen(it)), shown.edges.filter(isAtChosen)];
  const faint = Math.max(0.08, Math.min(0.5, 150 / shown.edges.length));
  const hits = new Set([...matches].map((it) => shown.stands[it]));
  const isClear = (edge) => (chosen < 0 ? hits.size === 0 || hits.has(edge.from) || hits.has(edge.to) : isOfChosen(edge.from));
  for (const edge of plain) line(edge, `rgba(70, 84, 110, ${isClear(edge) ? faint : 0.05})`, 1);
  const isDense = chosenOnes.length > FEW_NEAR;
  context.globalAlpha = isDense ? Math.max(0.25, FEW_NEAR / chosenOnes.length) : 1;
  for (const edge of chosenOnes) line(edge, isOfChosen(edge.from) ? COLORS.leaving : COLORS.coming, isDense ? 1 : 2);
  context.globalAlpha = 1;
  numbers(chosen < 0 ? plain.filter(isClear) : chosenOnes);
  for (const it of shown.things) if (!isFrame(it)) box(it);
  if (view.scale <= READ.module && matches.size <= MOST_NAMES) for (const it of matches) if (shown.rects.has(it)) foundName(it);
}

/** Whether a thing is an open box, around what stands in it. */
function isFrame(it) {
  return shown.isBox(it) && shown.isOpen(it);
}

/** Whether an edge leads to what is chosen, or from there. */
function isAtChosen(edge) {
  return chosen >= 0 && isOfChosen(edge.from) !== isOfChosen(edge.to);
}

/** The curve of an edge, by the coordinates of its four points: from one side of a box to the side of the other that is the nearest. */
function curve({ from, to }) {
  const [a, b] = [shown.rects.get(from), shown.rects.get(to)];
  const [y, top] = [a.y + a.height / 2, b.y + b.height / 2];
  const ends = (x, right, out, back) => {
    const bend = Math.max(30, Math.abs(right - x) / 2);
    return { xs: [x, x + out * bend, right + back * bend, right], ys: [y, y, top, top] };
  };
  if (b.x >= a.x + a.width) return ends(a.x + a.width, b.x, 1, -1);
  if (b.x + b.width <= a.x) return ends(a.x, b.x + b.width, -1, 1);
  return ends(a.x + a.width, b.x + b.width, 1, 1);
}

function line(edge, color, width) {
  const { xs, ys } = curve(edge);
  context.setLineDash(edge.kind === "code" ? [] : edge.kind === "types" ? [2, 3] : [6, 4]);
  context.strokeStyle = color;
  context.lineWidth = (width * (1 + Math.log10(edge.count))) / Math.sqrt(view.scale);
  context.beginPath();
  context.moveTo(xs[0], ys[0]);
  context.bezierCurveTo(xs[1], ys[1], xs[2], ys[2], xs[3], ys[3]);
  context.stroke();
  context.setLineDash([]);
}

/** The numbers of imports of edges, each on its curve where no box and no other number stands; one for which there is no room is left out. */
function numbers(edges) {
  if (view.scale < READ.number) return;
  const taken = shown.things.filter((it) => !isFrame(it)).map((it) => shown.rects.get(it));
  const most = edges.filter((it) => it.count > 1).sort((one, other) => other.count - one.count);
  for (const edge of most.slice(0, MOST_NUMBERS)) {
    const room = roomOfNumber(edge, taken);
    if (room === undefined) continue;
    taken.push(room);
    number(edge.count, room);
  }
}

/** The best room for the number of an edge that is free, or nothing. */
function roomOfNumber(edge, taken) {
  const { xs, ys } = curve(edge);
  const size = { width: NUMBER.digit * String(edge.count).length + 2 * NUMBER.side, height: NUMBER.height };
  const rooms = NUMBER.parts.map((part) => ({ x: bezier(xs, part) - size.width / 2, y: bezier(ys, part) - size.height / 2, ...size }));
  return rooms.find((it) => !taken.some((other) => isOver(it, other)));
}

function number(count, room) {
  const [left, bottom] = [room.x + NUMBER.side, room.y + NUMBER.height - 2];
  context.font = `10px ${FONT}`;
  context.lineWidth = 3;
  context.strokeStyle = COLORS.ground;
  context.strokeText(count, left, bottom);
  context.fillStyle = COLORS.ink;
  context.fillText(count, left, bottom);
}

/** Whether two rectangles have a point in common. */
function isOver(one, other) {
  return one.x < other.x + other.width && other.x < one.x + one.width && one.y < other.y + other.height && other.y < one.y + one.height;
}

/** The coordinate of a point of a curve, after a part of its way. */
function bezier([one, two, three, four], part) {
  const rest = 1 - part;
  return rest ** 3 * one + 3 * rest ** 2 * part * two + 3 * rest * part ** 2 * three + part ** 3 * four;
}

function isFaint(it) {
  return (chosen >= 0 && !isOfChosen(it) && !near.has(it)) || (matches.size > 0 && foundIn(it) === 0);
}

/** How much of what was searched a thing is or has. */
function foundIn(it) {
  if (matches.size === 0) return 0;
  if (!shown.isBox(it)) return matches.has(it) ? 1 : 0;
  return shown.modulesOf(it).filter((one) => matches.has(one)).length;
}

function frame(it) {
  const { x, y, width, height } = shown.rects.get(it);
  context.fillStyle = FILLS.frame;
  context.strokeStyle = it === chosen ? COLORS.ink : COLORS.line;
  context.lineWidth = it === chosen ? 2 : 1;
  context.fillRect(x, y, width, height);
  context.strokeRect(x, y, width, height);
  context.fillStyle = it === chosen ? FILLS.chosen : FILLS.box;
  context.fillRect(x, y, width, FRAME.head);
  // The name is seen while a part of the head is.
  const left = Math.min(Math.max(x, -view.x / view.scale), x + Math.max(0, width - BOX.width));
  text(`\u2212  ${nameOf(it)}`, left + 8, y + 17, x + width - left - 16, `600 12px ${FONT}`, hasError(it) ? COLORS.error : COLORS.ink);
}

function box(it) {
  const { x, y, width, height } = shown.rects.get(it);
  const [isBox, found] = [shown.isBox(it), foundIn(it)];
  if (isFaint(it)) {
    // No edge goes through its text.
    context.fillStyle = COLORS.ground;
    context.fillRect(x, y, width, height);
    context.globalAlpha = FAINT;
  }
  const plain = isBox ? FILLS.box : FILLS.module;
  context.fillStyle = it === chosen ? FILLS.chosen : found > 0 ? FILLS.found : hasError(it) && !isBox ? FILLS.error : plain;
  context.strokeStyle = hasError(it) ? COLORS.error : isRoot(it) ? COLORS.ink : COLORS.line;
  context.lineWidth = isRoot(it) || it === chosen ? 2 : 1;
  context.fillRect(x, y, width, height);
  context.strokeRect(x, y, width, height);
  const color = hasError(it) ? COLORS.error : COLORS.ink;
  if (isBox && view.scale > READ.box) {
    text(`+  ${cut(nameOf(it))}`, x + 8, y + 16, width - 16, `600 12px ${FONT}`, color);
    text(found > 0 ? `${found} found in ${totalsText(it)}` : totalsText(it), x + 8, y + 31, width - 16, `11px ${FONT}`, color);
  } else if (!isBox && view.scale > READ.module) text(cut(labelOf(it)), x + 6, y + 14, width - 12, `12px ${FONT}`, color);
  context.globalAlpha = 1;
}

/** The name of a found module above its box, as large at every scale, and whole where the box is seen. */
function foundName(it) {
  const { x, y } = shown.rects.get(it);
  const words = cut(labelOf(it));
  const last = (canvas.clientWidth - view.x - FOUND_LETTER * words.length) / view.scale;
  const [left, bottom] = [x * view.scale < canvas.clientWidth - view.x ? Math.min(x, last) : x, y - 4 / view.scale];
  context.font = `600 ${12 / view.scale}px ${FONT}`;
  context.lineWidth = 4 / view.scale;
  context.strokeStyle = "#ffffff";
  context.strokeText(words, left, bottom);
  context.fillStyle = hasError(it) ? COLORS.error : COLORS.ink;
  context.fillText(words, left, bottom);
}

/** A text, which is made narrower where it is wider than `width`. */
function text(words, x, y, width, font, color) {
  context.fillStyle = color;
  context.font = font;
  context.fillText(words, x, y, width);
}

/** The end of a long name: names differ there. */
function cut(name) {
  return name.length > LETTERS ? `\u2026${name.slice(1 - LETTERS)}` : name;
}

// Place and scale

function resize() {
  const { width, height } = canvas.parentElement.getBoundingClientRect();
  const ratio = devicePixelRatio || 1;
  canvas.width = width * ratio;
  canvas.height = height * ratio;
  draw();
}

function showAll() {
  fit(shown.things, 1.5);
}

/** Moves and zooms so that these things are seen, at a scale of at most `most`. */
function fit(things, most = 1) {
  const { width, height } = canvas.parentElement.getBoundingClientRect();
  const rects = things.flatMap((it) => (shown.rects.has(it) ? [shown.rects.get(it)] : []));
  if (rects.length === 0) return draw();
  const edge = (pick, of) => rects.reduce((found, it) => pick(found, of(it)), of(rects[0]));
  const [left, right] = [edge(Math.min, (it) => it.x), edge(Math.max, (it) => it.x + it.width)];
  const [top, bottom] = [edge(Math.min, (it) => it.y), edge(Math.max, (it) => it.y + it.height)];
  view.scale = Math.min(most, (width - 60) / (right - left), (height - 60) / (bottom - top));
  view.x = (width - (left + right) * view.scale) / 2;
  view.y = (height - (top + bottom) * view.scale) / 2;
  draw();
}

function center(it) {
  const { width, height } = canvas.parentElement.getBoundingClientRect();
  const rect = shown.rects.get(shown.isBox(it) ? (shown.around(it).find((box) => !shown.isOpen(box)) ?? it) : it);
  view.scale = Math.max(view.scale, 0.8);
  view.x = width / 2 - (rect.x + rect.width / 2) * view.scale;
  view.y = height / 2 - (rect.y + Math.min(rect.height, height) / 2) * view.scale;
}

function zoom(factor, x = canvas.clientWidth / 2, y = canvas.clientHeight / 2) {
  const scale = Math.max(0.02, Math.min(6, view.scale * factor));
  view.x = x - ((x - view.x) * scale) / view.scale;
  view.y = y - ((y - view.y) * scale) / view.scale;
  view.scale = scale;
  draw();
}
