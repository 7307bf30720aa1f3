// Where boxes stand in a frame: in columns, so that imports lead to the right, and those that import the same side by side.
"use strict";
const SPACE = { column: 70, row: 8 };
/** More columns than MOST_COLUMNS, and than MOST_WIDE times the root of the number of boxes, are too wide to be read: then there are FEW_WIDE times. */
const [MOST_COLUMNS, MOST_WIDE, FEW_WIDE] = [5, 1.2, 0.8];
/** How wide a screen is against its height, and how often the least height the whole may have. */
const SCREEN = 1.6;
const HEIGHTS = [1, 1.25, 1.5, 1.75, 2];

/**
 * The places of boxes: `sizes` is a list of `{ width, height }`, `edges` has pairs of places in it, and `starts` the boxes to begin with. Columns
 * begin at the top where `isTop`, else their middles are at one height. Answers `places`, a list of `[x, y]` of their upper left corners, and
 * `width` and `height` of the whole, which begins at 0, 0.
 */
function arrange(sizes, edges, starts, isTop) {
  const after = sizes.map(() => []);
  const before = sizes.map(() => []);
  for (const [from, to] of edges) {
    if (from === to) continue;
    after[from].push(to);
    before[to].push(from);
  }
  const layers = [];
  longestDepths(after, starts).forEach((depth, it) => (layers[depth] ??= []).push(it));
  const columns = narrowed(layers.filter((it) => it !== undefined), sizes.length);
  order(columns, before, after);
  return stand(columns, sizes, isTop);
}

/** The same layers, of which some that follow each other are one column where there are too many, as where boxes import each other in circles. */
function narrowed(layers, count) {
  if (layers.length <= Math.max(MOST_COLUMNS, MOST_WIDE * Math.sqrt(count))) return layers;
  const most = Math.ceil(count / Math.max(MOST_COLUMNS, FEW_WIDE * Math.sqrt(count)));
  const columns = [[]];
  for (const layer of layers) {
    const last = columns[columns.length - 1];
    if (last.length === 0 || last.length + layer.length <= most) last.push(...layer);
    else columns.push([...layer]);
  }
  return columns;
}

/** The length of a longest way from a start, over no edge that closes a circle. */
function longestDepths(after, starts) {
  const state = new Array(after.length).fill(0);
  const finished = [];
  const isClosing = new Set();
  const enter = (start) => {
    const open = [[start, 0]];
    state[start] = 1;
    while (open.length > 0) {
      const level = open[open.length - 1];
      const to = after[level[0]][level[1]++];
      if (to === undefined) {
        state[level[0]] = 2;
        finished.push(level[0]);
        open.pop();
      } else if (state[to] === 0) {
        state[to] = 1;
        open.push([to, 0]);
      } else if (state[to] === 1) isClosing.add(`${level[0]} ${to}`);
    }
  };
  for (const it of [...starts, ...after.keys()]) if (state[it] === 0) enter(it);
  const depths = new Array(after.length).fill(0);
  for (const at of finished.reverse()) {
    for (const to of after[at]) if (!isClosing.has(`${at} ${to}`)) depths[to] = Math.max(depths[to], depths[at] + 1);
  }
  return depths;
}

/** Sorts each column by where the boxes beside it stand that import its boxes, or that these import, to and fro. */
function order(layers, before, after) {
  const rank = [];
  const note = (layer) => layer.forEach((it, place) => (rank[it] = (place + 0.5) / layer.length));
  layers.forEach(note);
  const sort = (layer, near) => {
    const pull = (it) => (near[it].length === 0 ? rank[it] : near[it].reduce((sum, one) => sum + rank[one], 0) / near[it].length);
    const pulls = new Map(layer.map((it) => [it, pull(it)]));
    layer.sort((one, other) => pulls.get(one) - pulls.get(other));
    note(layer);
  };
  for (let round = 0; round < 4; round++) {
    for (const it of layers) sort(it, before);
    for (const it of [...layers].reverse()) sort(it, after);
  }
}

/** The places of layers, of which a layer that is higher than the whole is to be gets several columns: of some heights, what is seen the largest. */
function stand(layers, sizes, isTop) {
  const room = sizes.reduce((sum, it) => sum + (it.width + SPACE.column) * (it.height + SPACE.row), 0);
  const least = Math.max(...sizes.map((it) => it.height), Math.sqrt(room / SCREEN), 0);
  const all = HEIGHTS.map((it) => standWithin(layers, sizes, isTop, it * least));
  const extent = ({ width, height }) => Math.max(width, SCREEN * height);
  return all.reduce((best, it) => (extent(it) < extent(best) ? it : best));
}

/** The places of layers, of which one that is higher than `high` gets several columns. */
function standWithin(layers, sizes, isTop, high) {
  const columns = layers.flatMap((layer) => {
    const whole = layer.reduce((sum, it) => sum + sizes[it].height + SPACE.row, 0);
    const most = whole / Math.ceil(whole / high);
    const parts = [[]];
    let sum = 0;
    for (const it of layer) {
      if (sum + sizes[it].height / 2 > most * parts.length) parts.push([]);
      parts[parts.length - 1].push(it);
      sum += sizes[it].height + SPACE.row;
    }
    return parts.map((one, at) => ({ one, isLast: at === parts.length - 1 }));
  });
  const heightOf = (column) => column.reduce((sum, it) => sum + sizes[it].height + SPACE.row, -SPACE.row);
  const height = Math.max(0, ...columns.map((it) => heightOf(it.one)));
  const places = new Array(sizes.length);
  let [x, width] = [0, 0];
  for (const { one, isLast } of columns) {
    let y = isTop ? 0 : (height - heightOf(one)) / 2;
    for (const it of one) {
      places[it] = [x, y];
      y += sizes[it].height + SPACE.row;
    }
    const wide = Math.max(0, ...one.map((it) => sizes[it].width));
    width = x + wide;
    x = width + (isLast ? SPACE.column : SPACE.column / 3);
  }
  return { places, width, height };
}

if (typeof module === "object") module.exports = { arrange };
