// The tools beside graph_tools: maps and policies of projects, and findings with their places; and the script itself.
"use strict";
const assert = require("node:assert");
const { spawnSync } = require("node:child_process");
const fs = require("node:fs");
const path = require("node:path");
const { test } = require("node:test");
const { pathToFileURL } = require("node:url");
const { TOOLS, inFolder, runTool } = require("./helper.js");

/** The line that a tool writes of a file of this name and content, read. */
function lineOf(tool, name, content, words = []) {
  return inFolder({ [name]: JSON.stringify(content) }, (folder) => {
    const ran = runTool(tool, [...words, path.join(folder, name)]);
    assert.strictEqual(ran.status, 0, ran.err);
    assert.match(ran.out, /^[^\n]*\n$/);
    return { line: JSON.parse(ran.out), err: ran.err, base: `${pathToFileURL(folder).href}/` };
  });
}

test("the map of a deno.json has its imports and scopes, with the file as base", () => {
  const [imports, scopes] = [{ lib: "./lib.js" }, { "./a/": { lib: "./b.js" } }];
  const { line, base } = lineOf("map_of_project", "deno.json", { name: "x", imports, scopes, tasks: {} });
  assert.deepStrictEqual(line, { base: `${base}deno.json`, map: { imports, scopes } });
  const moved = lineOf("map_of_project", "deno.json", { imports }, ["--base", "https://x.test/m.json"]);
  assert.deepStrictEqual(moved.line, { base: "https://x.test/m.json", map: { imports } });
});

test("a deno.json may name a file with its map", () => {
  inFolder({ "deno.json": '{"importMap":"maps/m.json"}', "maps/m.json": '{"imports":{"a":"./a.js"}}' }, (folder) => {
    const ran = runTool("map_of_project", [path.join(folder, "deno.json")]);
    const base = `${pathToFileURL(folder).href}/maps/m.json`;
    assert.deepStrictEqual(JSON.parse(ran.out), { base, map: { imports: { a: "./a.js" } } });
  });
});

test("the map of a package.json has what an import map can say", () => {
  const imports = { "#a": "./a.js", "#b/*": "./b/*", "#c/*.js": "./c/*.js", "#d": { node: "./n.js", import: "./i.js", default: "./d.js" }, "#e": null };
  const { line, err } = lineOf("map_of_project", "package.json", { imports });
  assert.deepStrictEqual(line.map, { imports: { "#a": "./a.js", "#b/": "./b/", "#d": "./i.js" } });
  assert.match(err, /left out: #c\/\*\.js/);
  assert.match(err, /left out: #e/);
});

test("the world stands behind the line, as it is", () => {
  inFolder({ "m.json": '{"imports":{}}', "w.json": '{"version":1}\n' }, (folder) => {
    const ran = runTool("map_of_project", ["--base", "file:///m", "--world", path.join(folder, "w.json"), path.join(folder, "m.json")]);
    assert.strictEqual(ran.out, '{"base":"file:///m","map":{"imports":{}}}\n{"version":1}\n');
  });
});

test("a file without a map, and one that isn't there", () => {
  inFolder({ "deno.json": "{}", "package.json": "{}", "list.json": "[]" }, (folder) => {
    for (const it of ["deno.json", "package.json", "list.json", "none.json"]) {
      const ran = runTool("map_of_project", [path.join(folder, it)]);
      assert.deepStrictEqual([ran.status, ran.out], [2, ""]);
      assert.match(ran.err, /^map_of_project: [^\n]+\n$/);
    }
    assert.strictEqual(runTool("map_of_project", []).status, 2);
  });
});

test("a policy forbids the schemes that the map doesn't lead to, and hosts that are named", () => {
  const imports = { std: "jsr:@std/assert@1", x: "https://x.test/m.js", y: "./y.js" };
  const { line } = lineOf("policy_of_project", "deno.json", { imports }, ["--deny", "evil.test"]);
  assert.deepStrictEqual(line.rules.map((it) => it.id), ["no-http", "no-npm", "no-node", "no-data", "no-blob", "no-way-back", "no-files", "deny-evil_test"]);
  assert.deepStrictEqual(line.rules[0], { id: "no-http", fromScheme: "file", toScheme: "http" });
  assert.deepStrictEqual(line.rules.at(-1), { id: "deny-evil_test", toHost: "evil.test" });
});

const span = (line, character) => ({ start: { line, character }, end: { line, character: character + 3 } });
const GRAPH = {
  roots: ["file:///p/a%20b.js"],
  redirects: {},
  modules: [
    {
      specifier: "file:///p/a%20b.js",
      kind: "esm",
      dependencies: [
        { specifier: "x", code: { specifier: "https://x.test/m.js", span: span(2, 7) }, type: { specifier: "file:///t.d.ts", span: span(3, 0) } },
        { specifier: "https://x.test/m.js", code: { specifier: "https://x.test/m.js", span: span(9, 1) } },
      ],
      typesDependency: { specifier: "./s.d.ts", dependency: { specifier: "file:///p/s.d.ts", span: span(0, 4) } },
    },
  ],
};

test("findings are shown where their imports stand, an import a line", () => {
  const report = `h file:///p/a%20b.js code https://x.test/m.js via file:///p/a%20b.js
t file:///p/a%20b.js type file:///t.d.ts via file:///p/a%20b.js
s file:///p/a%20b.js types file:///p/s.d.ts via file:///p/a%20b.js
r https://x.test/m.js redirect https://y.test/ via file:///p/a%20b.js https://x.test/m.js
findings 4
`;
  inFolder({ "graph.json": `${JSON.stringify(GRAPH)}\nvalid\n`, report }, (folder) => {
    const ran = runTool("show_findings", [path.join(folder, "graph.json"), path.join(folder, "report")]);
    const wanted = [
      "/p/a b.js:3:8: h: code https://x.test/m.js",
      "/p/a b.js:10:2: h: code https://x.test/m.js",
      "/p/a b.js:4:1: t: type file:///t.d.ts",
      "/p/a b.js:1:5: s: types file:///p/s.d.ts",
      "https://x.test/m.js: r: redirect https://y.test/",
    ];
    assert.deepStrictEqual([ran.status, ran.out, ran.err], [1, wanted.map((it) => `${it}\n`).join(""), ""]);
    const none = runTool("show_findings", [path.join(folder, "graph.json")], "findings 0\n");
    assert.deepStrictEqual([none.status, none.out], [0, ""]);
    for (const it of ["", "findings 1\n", "x\nfindings 1\n", "valid\n"]) {
      assert.strictEqual(runTool("show_findings", [path.join(folder, "graph.json")], it).status, 2);
    }
  });
});

test("graph_tools runs the sources where nothing is built, with words, input and status, and explains status 10", () => {
  const rt = '#!/bin/bash\n[ "$1" = try ] || exit 1\ncat\necho "run=ended status=$STATUS runners=1 proved=no" >&2\n';
  const files = { "crates.txt": "graph_tools: url\n", "crates/graph_tools/src/main.rt": "", "docs/proof_times.txt": "graph_tools 60 10\n", "bin/rt": rt };
  inFolder(files, (folder) => {
    const script = path.join(folder, "graph_tools");
    fs.copyFileSync(path.join(TOOLS, "..", "graph_tools"), script);
    fs.mkdirSync(path.join(folder, "tools/lib"), { recursive: true });
    for (const it of ["prove.py", "proof_plan.py", "program.sh"]) fs.copyFileSync(path.join(TOOLS, "lib", it), path.join(folder, "tools/lib", it));
    fs.chmodSync(path.join(folder, "bin/rt"), 0o755);
    for (const [words, status] of [[["policy"], 1], [["lock", "--strict"], 0], [["replay"], 10]]) {
      const env = { ...process.env, STATUS: String(status), PATH: `${path.join(folder, "bin")}:${process.env.PATH}` };
      const ran = spawnSync(script, words, { env, input: "the input", encoding: "utf8" });
      assert.deepStrictEqual([ran.status, ran.stdout], [status, "the input"], ran.stderr);
      assert.match(ran.stderr, /^graph_tools: the program isn't proved and built yet: /);
      assert.match(ran.stderr, /graph_tools: \.\/graph_tools --prove proves and builds it/);
      assert.strictEqual(/\ngraph_tools: status 10: the first line isn't rules/.test(ran.stderr), status === 10);
    }
  });
});
