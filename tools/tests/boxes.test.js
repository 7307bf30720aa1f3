// Modules in boxes: which package or folder each is in, diagrams of boxes, and what the page shows of open and closed ones.
"use strict";
const assert = require("node:assert");
const { test } = require("node:test");
const { boxTree, boxesOf } = require("../lib/boxes.js");
const { GraphIndex } = require("../lib/graph.js");
const { packagesOf } = require("../lib/packages.js");
const { Shown } = require("../lib/page/boxes.js");
const { arrange } = require("../lib/page/layout.js");
const { dotText, mermaidText } = require("../lib/show_diagram.js");
const { htmlText } = require("../lib/show_html.js");

const SPAN = { start: { line: 0, character: 7 }, end: { line: 0, character: 9 } };

/** A graph told by its imports: specifier to a list of `[text, specifier]`, or to a text, the error of the module. The first is the root. */
function graphOf(told) {
  const modules = Object.entries(told).map(([specifier, it]) => {
    if (typeof it === "string") return { specifier, error: it };
    const dependencies = it.map(([text, to]) => ({ specifier: text, code: to === undefined ? { error: "no", span: SPAN } : { specifier: to, span: SPAN } }));
    return { kind: "esm", specifier, size: 1024, dependencies };
  });
  return new GraphIndex({ roots: [modules[0].specifier], modules });
}

/** A graph of so many modules in a folder, the first of which imports all. */
function manyIn(names) {
  const all = names.map((it) => `file:///p/${it}`);
  return graphOf(Object.fromEntries(all.map((it, place) => [it, place === 0 ? all.slice(1).map((to) => [`./x${to}`, to]) : []])));
}

const namesOf = (found) => [...found.values()].map(({ name, modules }) => `${name} ${modules.length}`);

test("packages are those of node_modules, of bare imports, and of registries", () => {
  const index = graphOf({
    "file:///home/me/shop/src/main.ts": [
      ["d3-array/x", "file:///usr/share/nodejs/d3-array/src/x.js"],
      ["@s/kit", "file:///home/me/shop/node_modules/@s/kit/index.js"],
      ["slug", "file:///home/me/shop/node_modules/slug/a.js"],
      ["./shop/own.js", "file:///home/me/shop/src/own.js"],
    ],
    "file:///home/me/shop/src/own.js": [["gone"]],
    "file:///usr/share/nodejs/d3-array/src/x.js": [["./y.js", "file:///usr/share/nodejs/d3-array/src/y.js"]],
    "file:///usr/share/nodejs/d3-array/src/y.js": [],
    "file:///home/me/shop/node_modules/@s/kit/index.js": [["slug", "file:///home/me/shop/node_modules/@s/kit/node_modules/slug/a.js"]],
    "file:///home/me/shop/node_modules/@s/kit/node_modules/slug/a.js": [],
    "file:///home/me/shop/node_modules/slug/a.js": [],
    "https://jsr.io/@std/path/1.0.2/mod.ts": [],
    "https://deno.land/std@0.200.0/fs/mod.ts": [],
    "https://esm.sh/react@18.2.0": [],
    "https://example.com/a/b.js": [],
    "npm:@types/node@20.1.0/x": [],
    "npm:/chalk@5.3.0/index.js": [],
    "node:fs": [],
    "node:path": [],
    "data:text/javascript,1": [],
  });
  assert.deepStrictEqual(namesOf(packagesOf(index)), [
    "shop 2",
    "d3-array 2",
    "@s/kit 1",
    "slug (@s/kit) 1",
    "slug (shop) 1",
    "@std/path@1.0.2 1",
    "deno.land/std@0.200.0 1",
    "esm.sh/react@18.2.0 1",
    "example.com 1",
    "npm:@types/node@20.1.0 1",
    "npm:chalk@5.3.0 1",
    "node: (built in) 2",
    "data: URLs 1",
  ]);
});

test("a bare import of a name that the project's own path has is no package around the project", () => {
  const index = graphOf({
    "file:///home/three/site/main.js": [["three", "file:///home/three/site/vendor/three/index.js"]],
    "file:///home/three/site/vendor/three/index.js": [],
  });
  assert.deepStrictEqual(namesOf(packagesOf(index)), ["site 1", "three 1"]);
});

test("above 150 modules boxes are packages, else folders, else beginnings of names; up to 150 there are none", () => {
  const numbers = (count) => Array.from({ length: count }, (_, at) => at);
  assert.deepStrictEqual(boxesOf(manyIn(numbers(150).map((it) => `a/m${it}.js`))), []);
  const packages = manyIn(numbers(200).map((it) => (it < 90 ? `src/m${it}.js` : `node_modules/kit/m${it}.js`)));
  assert.deepStrictEqual(namesOf(boxesOf(packages)), ["p 90", "kit 110"]);
  const folders = manyIn(numbers(200).map((it) => `lib/part${it % 3}/deep/m${it}.js`));
  assert.deepStrictEqual(namesOf(boxesOf(folders)), ["part0/deep/ 67", "part1/deep/ 67", "part2/deep/ 66"]);
  // Of 160 folders two levels down only the first level is taken.
  const wide = manyIn(numbers(200).map((it) => `part${it % 2}/${it % 160}/m.js?${it}`));
  assert.deepStrictEqual(namesOf(boxesOf(wide)), ["part0/ 100", "part1/ 100"]);
  const names = manyIn(numbers(160).map((it) => (it < 60 ? `_baseMap${it}.js` : `${String.fromCharCode(97 + (it % 26))}${"y".repeat(it)}.js`)));
  const found = boxesOf(names);
  assert.strictEqual(found[0].name, "_base..");
  assert.strictEqual(found[0].modules.length, 60);
  assert.strictEqual(found.reduce((sum, it) => sum + it.modules.length, 0), 160);
  assert.match(found[1].name, /^a(y)+\.js to /);
});

test("a box of more than 150 modules has boxes, and each module has one place", () => {
  const index = manyIn(Array.from({ length: 400 }, (_, it) => (it < 300 ? `src/part${it % 2}/m${it}.js` : `node_modules/kit/m${it}.js`)));
  const { boxes, placeOf } = boxTree(index);
  assert.deepStrictEqual(boxes.map((it) => `${it.name} in ${it.parent}`), ["p in -1", "part0/ in 0", "part1/ in 0", "kit in -1"]);
  assert.strictEqual(placeOf.size, 400);
  assert.strictEqual(placeOf.get("file:///p/src/part1/m7.js"), 2);
  assert.strictEqual(boxes[2].folder, "file:///p/src/part1/");
});

test("diagrams of boxes count modules, sizes, errors and imports", () => {
  const index = graphOf({
    "file:///p/src/a.js": [["./b.js", "file:///p/src/b.js"], ["kit", "file:///p/node_modules/kit/i.js"], ["nowhere"]],
    "file:///p/src/b.js": [["kit", "file:///p/node_modules/kit/i.js"], ["kit/gone", "file:///p/node_modules/kit/gone"]],
    "file:///p/node_modules/kit/i.js": [],
    "file:///p/node_modules/kit/gone": "Module not found",
  });
  assert.strictEqual(dotText(index, "package"), `digraph modules {
  rankdir=LR;
  node [shape=box, fontname="sans-serif", fontsize=10];
  edge [fontname="sans-serif", fontsize=9];
  n0 [label="p\\n2 modules, 2KB, 1 with errors", color=red, fontcolor=red, penwidth=2];
  n1 [label="kit\\n2 modules, 1KB, 1 with errors", color=red, fontcolor=red];
  n0 -> n1 [label=3];
}
`);
  const mermaid = mermaidText(index, "package");
  assert.ok(mermaid.includes('n0["p<br>2 modules, 2KB, 1 with errors"]\n'));
  assert.ok(mermaid.includes("  n0 -- 3 --> n1\n"));
  assert.ok(dotText(index, "folder").includes('label="src/\\n2 modules'));
  assert.strictEqual(dotText(index, "module"), dotText(index));
});

/** What a page shows: the names of what is seen, boxes in brackets, and its edges with their counts. */
function seenOf(shown, data) {
  const nameOf = (it) => (shown.isBox(it) ? `[${data.boxes[it - shown.count].name}]` : data.modules[it].name);
  return { things: shown.things.map(nameOf), edges: shown.edges.map((it) => `${nameOf(it.from)} ${nameOf(it.to)} ${it.count}`) };
}

function pageOf(index, by) {
  const data = JSON.parse(/<script type="application\/json" id="data">(.*?)<\/script>/s.exec(htmlText(index, "valid", by))[1]);
  return { data, shown: new Shown(data.modules, data.boxes, data.imports, data.roots) };
}

test("a page shows closed boxes, and what is in open ones", () => {
  const index = graphOf({
    "file:///p/src/a.js": [["./b.js", "file:///p/src/b.js"], ["kit", "file:///p/node_modules/kit/i.js"]],
    "file:///p/src/b.js": [["kit", "file:///p/node_modules/kit/i.js"], ["kit/j.js", "file:///p/node_modules/kit/j.js"]],
    "file:///p/node_modules/kit/i.js": [["./j.js", "file:///p/node_modules/kit/j.js"]],
    "file:///p/node_modules/kit/j.js": [],
  });
  const { data, shown } = pageOf(index, "package");
  assert.deepStrictEqual(seenOf(shown, data), { things: ["[p]", "[kit]"], edges: ["[p] [kit] 3"] });
  assert.deepStrictEqual(shown.totals[1], { count: 2, size: 2048, errors: 0, isRoot: false });
  const kit = shown.count + 1;
  const closed = shown.rects.get(kit);
  shown.open.add(kit);
  shown.lay();
  assert.deepStrictEqual(seenOf(shown, data), {
    things: ["[p]", "[kit]", "node_modules/kit/i.js", "node_modules/kit/j.js"],
    edges: ["[p] node_modules/kit/i.js 2", "[p] node_modules/kit/j.js 1", "node_modules/kit/i.js node_modules/kit/j.js 1"],
  });
  const frame = shown.rects.get(kit);
  for (const it of shown.modulesOf(kit)) {
    const { x, y, width, height } = shown.rects.get(it);
    assert.ok(x > frame.x && y > frame.y && x + width < frame.x + frame.width && y + height < frame.y + frame.height);
    assert.strictEqual(shown.at(x + 1, y + 1), it);
  }
  assert.strictEqual(shown.at(frame.x + 3, frame.y + 3), kit);
  assert.strictEqual(shown.at(frame.x + 3, frame.y + frame.height - 3), undefined);
  shown.open.delete(kit);
  shown.lay();
  assert.deepStrictEqual(shown.rects.get(kit), closed);
});

test("what is found opens the boxes around it, as deep as they are", () => {
  const index = manyIn(Array.from({ length: 400 }, (_, it) => (it < 300 ? `src/part${it % 2}/m${it}.js` : `node_modules/kit/m${it}.js`)));
  const { data, shown } = pageOf(index);
  assert.deepStrictEqual(seenOf(shown, data).things, ["[p]", "[kit]"]);
  const wanted = data.modules.findIndex((it) => it.name.endsWith("/m7.js"));
  shown.found = new Set(shown.around(wanted));
  shown.lay();
  const { things } = seenOf(shown, data);
  assert.deepStrictEqual(things.filter((it) => it.startsWith("[")), ["[p]", "[part0/]", "[part1/]", "[kit]"]);
  assert.strictEqual(things.length, 4 + 150);
});

test("no two boxes overlap, and a row of imports leads to the right", () => {
  for (const count of [1, 60, 200]) {
    const sizes = Array.from({ length: count }, (_, at) => ({ width: 100 + (at % 3) * 50, height: 20 + (at % 5) * 30 }));
    const edges = Array.from({ length: count * 3 }, (_, at) => [at % count, (at * 7 + 1) % count]);
    const { places, width, height } = arrange(sizes, edges, [0]);
    places.forEach(([x, y], one) => {
      assert.ok(x >= 0 && y >= 0 && x + sizes[one].width <= width && y + sizes[one].height <= height + 1e-9);
      for (let other = 0; other < one; other++) {
        const [left, top] = places[other];
        const isApart = x >= left + sizes[other].width || left >= x + sizes[one].width || y >= top + sizes[other].height || top >= y + sizes[one].height;
        assert.ok(isApart, `${one} and ${other} of ${count}`);
      }
    });
  }
  const { places } = arrange(Array(4).fill({ width: 10, height: 10 }), [[0, 1], [1, 2], [0, 2], [2, 3], [3, 1]], [0]);
  assert.ok(places[0][0] < places[1][0] && places[1][0] < places[2][0] && places[2][0] < places[3][0]);
});

test("a layer gets as many columns as make the whole the largest on a screen", () => {
  const sizes = Array(33).fill({ width: 210, height: 38 });
  const columnsOf = (edges) => new Set(arrange(sizes, edges, [0]).places.map(([x]) => x)).size;
  const to = (from, first, last) => Array.from({ length: last - first + 1 }, (_, at) => [from, first + at]);
  // Five layers of 1, 15, 8, 8 and 1 boxes: the second is high, and in two columns the whole would be wide.
  assert.strictEqual(columnsOf([...to(0, 1, 15), ...to(1, 16, 23), ...to(16, 24, 31), [24, 32]]), 5);
  // Of two layers the second is in several columns: in one the whole would be far higher than a screen.
  assert.ok(columnsOf(to(0, 1, 32)) > 3);
});

test("columns of an open box begin below its head, and those of the whole have their middles at one height", () => {
  const [sizes, edges] = [Array(9).fill({ width: 10, height: 10 }), Array.from({ length: 8 }, (_, at) => [0, at + 1])];
  const first = (isTop) => arrange(sizes, edges, [0], isTop);
  assert.strictEqual(first(true).places[0][1], 0);
  assert.strictEqual(first(false).places[0][1], (first(false).height - 10) / 2);
  const { shown } = pageOf(manyIn(Array.from({ length: 60 }, (_, it) => `src/m${it}.js`)), "package");
  shown.open.add(shown.count);
  shown.lay();
  const tops = shown.modules.map((_, it) => shown.rects.get(it).y);
  assert.strictEqual(tops[0], Math.min(...tops));
});
