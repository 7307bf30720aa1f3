// The comparisons with other programs.
"use strict";
const assert = require("node:assert");
const { spawnSync } = require("node:child_process");
const fs = require("node:fs");
const path = require("node:path");
const { test } = require("node:test");
const { pathToFileURL } = require("node:url");
const { inFolder, runTool } = require("./helper.js");

const noEsbuild = spawnSync("esbuild", ["--version"]).status !== 0;
const withEsbuild = { skip: noEsbuild && "there is no esbuild: apt-get install esbuild" };

test("esbuild lists the same files, or others", withEsbuild, () => {
  const files = { "a.js": 'import "./b.js";\nimport "./gone.js";\nimport "fs";\nimport "./d.svg";\n', "d.svg": "", "b.js": 'import("./c.js");', "c.js": "" };
  inFolder(files, (folder) => {
    const url = (name) => pathToFileURL(path.join(folder, name)).href;
    const edge = (text, to) => ({ specifier: text, code: { specifier: to } });
    const dependencies = [edge("./b.js", url("b.js")), edge("./gone.js", url("gone.js")), edge("fs", "node:fs"), edge("./d.svg", url("d.svg"))];
    const map = { specifier: "a.js.map", dependency: { specifier: url("a.js.map") } };
    const modules = [
      { kind: "esm", specifier: url("a.js"), dependencies, maybeSourceMapDependency: map },
      { kind: "external", specifier: url("a.js.map") },
      { kind: "external", specifier: url("d.svg") },
      { kind: "esm", specifier: url("b.js") },
      { kind: "node", specifier: "node:fs" },
      { error: "Module not found", specifier: url("gone.js") },
    ];
    const compare = (list) => {
      fs.writeFileSync(path.join(folder, "g.json"), JSON.stringify({ modules: list, roots: [url("a.js")] }));
      return runTool("compare_with_esbuild", [path.join(folder, "g.json")]);
    };
    const other = compare(modules);
    const words = `3 files in the graph, 4 in esbuild's list, 3 in both\nonly in esbuild's list: ${path.join(folder, "c.js")}\n`;
    assert.deepStrictEqual([other.status, other.out], [1, words]);
    const same = compare([...modules, { kind: "esm", specifier: url("c.js") }]);
    assert.deepStrictEqual([same.status, same.out], [0, "4 files in the graph, 4 in esbuild's list, 4 in both\n"]);
  });
});

test("check_world and a program that refuses what has the word bad", () => {
  const program = "#!/bin/sh\nif grep -q bad; then exit 3; else exit 6; fi\n";
  const files = { program, "worlds/1.json": '{"version":1}', "worlds/2.json": "bad", "worlds/note.txt": "bad" };
  inFolder(files, (folder) => {
    const file = path.join(folder, "program");
    fs.chmodSync(file, 0o755);
    const compare = () => runTool("compare_check_world", ["--program", file, path.join(folder, "worlds")]);
    assert.deepStrictEqual(compare(), { status: 0, out: "2 files: both refuse 1, both take 1, they differ on 0\n", err: "" });
    fs.writeFileSync(path.join(folder, "worlds/3.json"), '{"version":3}');
    const { status, out } = compare();
    assert.strictEqual(status, 1);
    assert.match(out, /^3\.json: graph_info ends with 6, check_world wants 1 or 2 at version\n/);
  });
});
