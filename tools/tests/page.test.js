// The program of the page, in a stand-in for a browser that keeps the texts of the picture, the list and the details.
"use strict";
const assert = require("node:assert");
const { test } = require("node:test");
const vm = require("node:vm");
const { GraphIndex } = require("../lib/graph.js");
const { htmlText } = require("../lib/show_html.js");

const SPAN = { start: { line: 0, character: 7 }, end: { line: 0, character: 9 } };

/** A graph of 200 modules: a project that imports each module of the package kit, of which the last is missing. */
function index() {
  const kit = Array.from({ length: 150 }, (_, it) => `file:///p/node_modules/kit/m${it}.js`);
  const own = Array.from({ length: 50 }, (_, it) => `file:///p/src/own${it}.js`);
  const edge = (to) => ({ specifier: to, code: { specifier: to, span: SPAN } });
  const modules = [...own, ...kit].map((specifier) => {
    if (specifier.endsWith("/m149.js")) return { specifier, error: "Module not found" };
    return { kind: "esm", specifier, size: 1024, dependencies: (specifier === own[0] ? [...own.slice(1), ...kit] : []).map(edge) };
  });
  return new GraphIndex({ roots: [own[0]], modules });
}

/** An element of the page, with what the page's program asks of one. */
function element() {
  const made = { value: "", children: [], textContent: "", clientWidth: 1000, clientHeight: 700 };
  const rect = () => ({ left: 0, top: 0, width: 1000, height: 700 });
  return Object.assign(made, {
    append: (...more) => made.children.push(...more),
    replaceChildren: (...more) => (made.children = more),
    addEventListener: () => undefined,
    setPointerCapture: () => undefined,
    getBoundingClientRect: rect,
    parentElement: { getBoundingClientRect: rect, clientWidth: 1000, clientHeight: 700 },
  });
}

/** All texts of an element, in order. */
function textsOf(it) {
  if (typeof it === "string") return it.trim() === "" ? [] : [it];
  return [...(it.textContent === "" ? [] : [it.textContent]), ...it.children.flatMap(textsOf)];
}

/** The page of a graph: `value` runs an expression in it, `drawn` has the texts of the picture, `filled` its rectangles, `texts` those of an element. */
function openPage(graph, by) {
  const page = htmlText(graph, "valid", by);
  const part = (head) => page.slice(page.indexOf(head) + head.length, page.indexOf("</script>", page.indexOf(head)));
  const elements = new Map();
  const byId = (id) => {
    if (!elements.has(id)) elements.set(id, element());
    return elements.get(id);
  };
  byId("data").textContent = part('<script type="application/json" id="data">');
  let [drawn, filled] = [[], []];
  const clear = () => ([drawn, filled] = [[], []]);
  const calls = { clearRect: clear, fillText: (text) => drawn.push(String(text)), fillRect: (...at) => filled.push(at) };
  byId("picture").getContext = () => new Proxy({}, { get: (_, name) => calls[name] ?? (() => undefined), set: () => true });
  const document = { getElementById: byId, createElement: element };
  const [location, history, window] = [{ hash: "", pathname: "", search: "" }, { replaceState: () => undefined }, {}];
  const context = vm.createContext({ document, location, history, window, devicePixelRatio: 1 });
  vm.runInContext(part("<script>\n"), context);
  return { value: (text) => vm.runInContext(text, context), drawn: () => drawn, filled: () => filled, texts: (id) => textsOf(byId(id)), byId };
}

test("at first sight there is a box a package, with what it has and how many imports lead there", () => {
  const page = openPage(index());
  assert.deepStrictEqual(page.drawn(), ["150", "+  p", "50 modules, 50.0 KB", "+  kit", "150 modules, 149.0 KB, 1 with errors"]);
  assert.deepStrictEqual(page.texts("list"), ["p", "50 modules, 50.0 KB", "kit", "150 modules, 149.0 KB, 1 with errors"]);
  assert.deepStrictEqual(page.texts("summary"), ["200 modules, 199.0 KB in file:///p/. ", "valid"]);
});

test("a click opens a box, and a second one at the same place closes it", () => {
  const page = openPage(index());
  const before = page.drawn();
  const click = (x, y) => {
    const event = `{ clientX: ${x}, clientY: ${y}, offsetX: ${x}, offsetY: ${y}, pointerId: 1 }`;
    page.value(`canvas.onpointerdown(${event}); canvas.onpointerup(${event});`);
  };
  const [x, y] = page.value(`(() => {
    const { x, y } = shown.rects.get(shown.count + 1);
    return [view.x + (x + 20) * view.scale, view.y + (y + 10) * view.scale];
  })()`);
  click(x, y);
  assert.ok(page.drawn().includes("\u2212  kit"));
  assert.strictEqual(page.drawn().filter((it) => /^m\d+\.js$/.test(it)).length, 150);
  const details = ["kit", "150 modules, 149.0 KB, 1 with errors", "Close", "Imported by", "p", "150 imports", "With errors"];
  assert.deepStrictEqual(page.texts("details").slice(0, 8), [...details, "node_modules/kit/m149.js"]);
  click(x, y);
  page.value("choose(-1, false)");
  assert.deepStrictEqual(page.drawn(), before);
});

test("a search opens the boxes of what it finds, and its end closes them", () => {
  const page = openPage(index());
  const search = (words) => {
    page.byId("search").value = words;
    page.value("search()");
  };
  search("own7");
  assert.deepStrictEqual(page.texts("list"), ["src/own7.js"]);
  assert.deepStrictEqual(page.texts("summary")[0], "1 of 200 modules in file:///p/. ");
  assert.ok(page.drawn().includes("own7.js") && page.drawn().includes("+  kit"));
  // What is found has its name where the others are too small for one.
  page.value("zoom(0.1)");
  assert.deepStrictEqual(page.drawn(), ["\u2212  p", "own7.js"]);
  search("");
  assert.ok(page.drawn().includes("+  p") && !page.drawn().includes("own7.js"));
  search("nothing has this name");
  assert.deepStrictEqual(page.texts("list"), []);
});

test("numbers of imports stand where nothing else does, and no more of them than can be read", () => {
  const kit = (it) => `file:///p/node_modules/kit${it}/m.js`;
  const all = Array.from({ length: 160 }, (_, it) => kit(it));
  // Each package imports four others, these twice.
  const modules = all.map((specifier, it) => {
    const others = [it + 1, it + 7, it + 31, it * 2].filter((one) => one < all.length && one !== it);
    const edges = [...others, ...others].map((one) => ({ specifier: `x${one}`, code: { specifier: kit(one), span: SPAN } }));
    return { kind: "esm", specifier, size: 1, dependencies: edges };
  });
  const page = openPage(new GraphIndex({ roots: [kit(0)], modules }), "package");
  page.value("view.scale = 1; draw()");
  const numbers = page.drawn().filter((it) => /^\d+$/.test(it));
  assert.strictEqual(numbers.length, page.value("MOST_NUMBERS"));
  assert.strictEqual(page.value("shown.edges.filter((it) => it.count > 1).length > MOST_NUMBERS"), true);
  // Where everything is taken a number is left out, and beside each other two of them have a gap.
  assert.strictEqual(page.value("roomOfNumber(shown.edges[0], [{ x: -1e6, y: -1e6, width: 2e6, height: 2e6 }])"), undefined);
  assert.ok(page.value("roomOfNumber({ ...shown.edges[0], count: 12 }, []).width >= 2 * NUMBER.digit + 4"));
  const found = page.value("[isOver({ x: 0, y: 0, width: 9, height: 9 }, { x: 8, y: 8, width: 9, height: 9 }), isOver({ x: 0, y: 0, width: 9, height: 9 }, { x: 9, y: 0, width: 9, height: 9 })]");
  assert.deepStrictEqual([...found], [true, false]);
});

test("no edge is seen through a box that is faint", () => {
  const page = openPage(index());
  const times = () => page.filled().filter(([x, y]) => page.value(`shown.rects.get(shown.count + 1).x === ${x} && shown.rects.get(shown.count + 1).y === ${y}`)).length;
  assert.strictEqual(times(), 1);
  page.value("choose(shown.count, false); near.clear(); draw()");
  assert.strictEqual(times(), 2);
});

test("details of a module, with a way to it, open its boxes", () => {
  const page = openPage(index());
  page.value("choose(modules.findIndex((it) => it.name === 'node_modules/kit/m5.js'), true)");
  const details = page.texts("details");
  const name = "node_modules/kit/m5.js";
  assert.deepStrictEqual(details.slice(0, 6), [name, `file:///p/${name}`, "esm, 1.0 KB", "A shortest way to it", "src/own0.js", name]);
  assert.deepStrictEqual(details.slice(-3), ["Imported by 1", "src/own0.js", "1:8 "]);
  assert.ok(page.drawn().includes("m5.js"));
  page.value("closeAll()");
  assert.ok(page.drawn().includes("+  kit"));
});

test("a graph of few modules has no boxes", () => {
  const page = openPage(index(), "module");
  assert.strictEqual(page.value("shown.things.length"), 200);
  assert.strictEqual(page.byId("close").hidden, true);
});
