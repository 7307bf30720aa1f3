// What a page shows of a graph whose boxes are open or closed. Things are numbered: first the modules, then the boxes, each behind its parent.
"use strict";
const MODULE = { width: 210, height: 20 };
const BOX = { width: 210, height: 38 };
/** The room in a frame, which is an open box, around what stands in it. */
const FRAME = { head: 26, side: 12 };

class Shown {
  /** `modules` have `box` (-1 for none), `boxes` have `parent` (-1 for none), `imports` begin with `[from, to, kind]`. */
  constructor(modules, boxes, imports, roots) {
    Object.assign(this, { modules, boxes, imports });
    this.count = modules.length;
    this.parents = [...modules.map((it) => it.box), ...boxes.map((it) => it.parent)].map((it) => (it < 0 ? -1 : this.count + it));
    this.within = new Map();
    this.parents.forEach((parent, it) => {
      if (!this.within.has(parent)) this.within.set(parent, []);
      this.within.get(parent).push(it);
    });
    this.roots = new Set(roots);
    this.open = new Set();
    this.found = new Set();
    this.totals = this.total();
    this.lay();
  }

  isBox(it) {
    return it >= this.count;
  }

  /** Whether a box is open: the reader has opened it, or what was searched is in it. */
  isOpen(it) {
    return this.open.has(it) || this.found.has(it);
  }

  /** The boxes around a thing, the outermost first. */
  around(it) {
    const found = [];
    for (let at = this.parents[it]; at >= 0; at = this.parents[at]) found.unshift(at);
    return found;
  }

  /** The number of modules, bytes and modules with errors of each box. */
  total() {
    const totals = this.boxes.map(() => ({ count: 0, size: 0, errors: 0, isRoot: false }));
    this.modules.forEach((module, place) => {
      for (const box of this.around(place)) {
        const it = totals[box - this.count];
        it.count++;
        it.size += module.size || 0;
        if (module.error || module.broken.length > 0) it.errors++;
        if (this.roots.has(place)) it.isRoot = true;
      }
    });
    return totals;
  }

  /** The modules below a box. */
  modulesOf(box) {
    return this.within.get(box).flatMap((it) => (this.isBox(it) ? this.modulesOf(it) : [it]));
  }

  /** Works out what is to be seen: `things`, which is in the order of drawing, `rects` by thing, and `edges`. */
  lay() {
    // What stands for a module: itself, or the outermost closed box around it.
    this.stands = this.modules.map((_, it) => this.around(it).find((box) => !this.isOpen(box)) ?? it);
    this.edges = this.gather();
    this.things = [];
    this.rects = new Map();
    const { places, rects } = this.inside(-1);
    this.put(rects, places, 0, 0);
  }

  /** The imports between what is seen, those between the same two as one with a count. */
  gather() {
    const found = new Map();
    const all = this.count + this.boxes.length;
    for (const [from, to, kind] of this.imports) {
      const [one, other] = [this.stands[from], this.stands[to]];
      if (one === other) continue;
      const key = one * all + other;
      const edge = found.get(key);
      if (edge === undefined) found.set(key, { from: one, to: other, kind, count: 1 });
      else {
        edge.count++;
        if (kind === "code") edge.kind = kind;
      }
    }
    return [...found.values()];
  }

  /** The things in a frame with their sizes and places against its corner. */
  inside(frame) {
    const things = this.within.get(frame) ?? [];
    const at = new Map(things.map((it, place) => [it, place]));
    const rects = things.map((it) => (this.isBox(it) ? (this.isOpen(it) ? this.frameOf(it) : { ...BOX }) : { ...MODULE }));
    // The thing of this frame that another one is, or stands in.
    const up = (it) => {
      for (let one = it; one >= 0; one = this.parents[one]) if (at.has(one)) return at.get(one);
      return undefined;
    };
    const ends = this.edges.map((it) => [up(it.from), up(it.to)]);
    const edges = ends.filter(([from, to]) => from !== undefined && to !== undefined && from !== to);
    const starts = [...this.roots].map((it) => up(this.stands[it]));
    const entered = ends.flatMap(([from, to]) => (from === undefined && to !== undefined ? [to] : []));
    const first = [...starts, ...entered].filter((it) => it !== undefined);
    // An open box may reach far below what is seen: its columns begin below its head.
    return { rects, ...arrange(rects, edges, [...new Set(first)], frame >= 0) };
  }

  /** The size of an open box, and what stands in it. */
  frameOf(it) {
    const inner = this.inside(it);
    const width = Math.max(BOX.width, inner.width + 2 * FRAME.side);
    return { width, height: inner.height + FRAME.head + 2 * FRAME.side, inner };
  }

  put(rects, places, left, top, frame = -1) {
    (this.within.get(frame) ?? []).forEach((it, place) => {
      const [x, y] = [left + places[place][0], top + places[place][1]];
      const { width, height, inner } = rects[place];
      this.things.push(it);
      this.rects.set(it, { x, y, width, height });
      if (inner !== undefined) this.put(inner.rects, inner.places, x + FRAME.side, y + FRAME.head + FRAME.side, it);
    });
  }

  /** The thing at a point, or nothing. Of an open box only the head counts. */
  at(x, y) {
    for (let place = this.things.length - 1; place >= 0; place--) {
      const it = this.things[place];
      const rect = this.rects.get(it);
      const height = this.isBox(it) && this.isOpen(it) ? FRAME.head : rect.height;
      if (x >= rect.x && x <= rect.x + rect.width && y >= rect.y && y <= rect.y + height) return it;
    }
    return undefined;
  }
}

if (typeof module === "object") {
  globalThis.arrange = require("./layout.js").arrange;
  module.exports = { Shown };
}
