// What show_graph prints of a small graph with a redirect, a circle, errors, types and configured imports.
"use strict";
const assert = require("node:assert");
const path = require("node:path");
const { test } = require("node:test");
const { GraphIndex, readGraph } = require("../lib/graph.js");
const { dotText, mermaidText } = require("../lib/show_diagram.js");
const { htmlText } = require("../lib/show_html.js");
const { treeText } = require("../lib/show_tree.js");
const { inFolder, runTool } = require("./helper.js");

const FILE = path.join(__dirname, "graphs", "small.json");
const { graph, verdict } = readGraph(FILE);
const index = new GraphIndex(graph);

const TREE = `modules: 6 unique
size: 2.05KB
redirects: 1
errors: 1

file:///p/a.js (2KB)
├─┬ file:///p/lib/b.js (20B)
│ └─┬ file:///p/new.js (30B)
│   ├── file:///p/a.js *
│   └── file:///p/global.d.ts (5B) (types)
├── file:///p/gone.js (missing)
├── x (Relative import path "x" not prefixed with / or ./ or ../)
└── node:fs (node)

file:///p/deno.json (configured imports)
└── file:///p/global.d.ts * (types)

error: Module not found "file:///p/gone.js".
    at file:///p/a.js:2:8
`;

test("a tree, with colours on a terminal alone", () => {
  assert.strictEqual(treeText(index, verdict, false), TREE);
  const painted = treeText(index, verdict, true);
  assert.ok(painted.includes("\x1b[31mfile:///p/gone.js (missing)\x1b[0m"));
  assert.strictEqual(painted.replace(/\x1b\[\d+m/g, ""), TREE);
  assert.strictEqual(runTool("show_graph", [FILE]).out, TREE);
});

test("why a module is there", () => {
  const chain = `file:///p/a.js (a root)
  imports "./lib/b.js" at 1:8
file:///p/lib/b.js
  imports "../old.js" at 1:8
file:///p/new.js
`;
  assert.deepStrictEqual(runTool("show_graph", ["--why", "file:///p/old.js", FILE]), { status: 0, out: chain, err: "" });
  assert.strictEqual(runTool("show_graph", ["--why", "new.js", FILE]).out, chain);
  assert.strictEqual(runTool("show_graph", ["--why", "global.d.ts", FILE]).out, "file:///p/global.d.ts (configured at file:///p/deno.json)\n");
  const part = runTool("show_graph", ["--dot", "--why", "b.js", FILE]).out;
  assert.ok(part.includes('"lib/b.js"') || part.includes('"b.js"'));
  assert.ok(!part.includes("gone"));
});

test("a source map, and a long data: URL", () => {
  const url = `data:application/json;base64,${"A".repeat(100)}`;
  const span = { start: { line: 3, character: 21 }, end: { line: 3, character: 150 } };
  const map = { specifier: url, dependency: { specifier: url, span } };
  const modules = [{ kind: "esm", specifier: "file:///a.js", size: 1, maybeSourceMapDependency: map }, { kind: "external", specifier: url }];
  const whole = { roots: ["file:///a.js"], modules };
  const cut = `${url.slice(0, 60)}..`;
  assert.match(treeText(new GraphIndex(whole), "", false), new RegExp(`── ${cut} \\(external\\) \\(source map\\)\n$`));
  assert.ok(dotText(new GraphIndex(whole)).includes(`label="${cut}", style=dashed];\n  n0 -> n1 [style=dotted];`));
  inFolder({ "g.json": JSON.stringify(whole) }, (folder) => {
    const chain = `file:///a.js (a root)\n  has the source map "${cut}" at 4:22\n${cut}\n`;
    assert.strictEqual(runTool("show_graph", ["--why", url, path.join(folder, "g.json")]).out, chain);
    assert.ok(runTool("show_graph", ["--mermaid", "--why", url, path.join(folder, "g.json")]).out.includes("n0 -. source map .-> n1"));
  });
});

test("Graphviz and Mermaid", () => {
  const dot = dotText(index);
  assert.ok(dot.startsWith("digraph modules {") && dot.endsWith("}\n"));
  for (const it of ['n0 [label="a.js", penwidth=2];', 'n2 [label="gone.js", color=red, fontcolor=red];', "n0 -> n3;", "n4 -> n1 [style=dotted];"]) {
    assert.ok(dot.includes(it), it);
  }
  const mermaid = mermaidText(index);
  assert.ok(mermaid.startsWith("flowchart LR\n"));
  for (const it of ['n3["lib/b.js"]', "n3 --> n4", "n4 -. types .-> n1", "class n0 root"]) assert.ok(mermaid.includes(it), it);
});

test("one page without outside parts", () => {
  const page = htmlText(index, verdict);
  assert.ok(page.startsWith("<!DOCTYPE html>"));
  assert.doesNotMatch(page, /\{\{|<link|<img|<script[^>]*\ssrc|@import|https?:/);
  const data = JSON.parse(/<script type="application\/json" id="data">(.*?)<\/script>/s.exec(page)[1]);
  assert.strictEqual(data.modules.length, 6);
  assert.deepStrictEqual([data.boxes, data.modules.map((it) => it.box)], [[], [-1, -1, -1, -1, -1, -1]]);
  const evil = htmlText(new GraphIndex({ ...graph, roots: [], modules: [{ specifier: "file:///</script><b>$&.js", error: "" }] }), "");
  assert.ok(!evil.includes("</script><b>"));
  assert.ok(evil.includes("$&.js"));
});

test("a fault of the caller has status 2 and a message", () => {
  const rows = [
    [["--why", "zzz", FILE], /no module zzz/],
    [["--why", ".js", FILE], /4 modules end with .js/],
    [["--dot", "--html", FILE], /don't go together/],
    [["--dot", "--by", "file", FILE], /--by takes package, folder or module, and not file/],
    [["--by", "folder", FILE], /--by goes with --dot, --mermaid and --html/],
    [["/nope"], /there is no such file/],
    [[__filename], /is no JSON/],
    [[], /is empty/],
  ];
  for (const [words, message] of rows) {
    const { status, out, err } = runTool("show_graph", words);
    assert.deepStrictEqual([status, out], [2, ""], words.join(" "));
    assert.match(err, message);
  }
});
