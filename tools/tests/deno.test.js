// Worlds of Deno's graphs, and comparisons with them. The graph in graphs/deno_info.json is of the form of `deno info --json`.
"use strict";
const assert = require("node:assert");
const fs = require("node:fs");
const path = require("node:path");
const { test } = require("node:test");
const { compareGraphs } = require("../lib/compare_graphs.js");
const { WorldOfInfo } = require("../lib/deno_info.js");
const { worldFaults } = require("../lib/world_file.js");
const { inFolder, runTool } = require("./helper.js");

const FILE = path.join(__dirname, "graphs", "deno_info.json");
const info = JSON.parse(fs.readFileSync(FILE, "utf8"));
const copy = () => JSON.parse(JSON.stringify(info));
const faults = (world) => worldFaults(Buffer.from(JSON.stringify(world))).faults;

test("the world of a graph", () => {
  const made = new WorldOfInfo(info);
  const world = made.world();
  assert.deepStrictEqual(faults(world), []);
  assert.deepStrictEqual(world.sources["npm:chalk@5"], { kind: "redirect", to: "npm:/chalk@5.3.0" });
  assert.deepStrictEqual(world.sources["npm:/chalk@5.3.0"], { kind: "external" });
  assert.deepStrictEqual(world.sources["file:///p/data.json"], { kind: "module", text: "  " });
  assert.strictEqual(world.sources["file:///p/a.ts"].text.length, 40);
  assert.ok(!("file:///p/gone.ts" in world.sources));
  const kinds = world.infos["file:///p/main.ts"].dependencies.map((it) => `${it.type} ${it.kind} ${it.specifier ?? it.argument}`);
  assert.deepStrictEqual(kinds, [
    "static import ./a.ts",
    "static import ./b.js",
    "static import ./data.json",
    "static import ./gone.ts",
    "dynamic import ./later.ts",
    "static importType ./types.ts",
    "static import left-pad",
    "static import lib",
    "static import node:fs",
  ]);
  const leads = world.resolutions.filter((it) => it.text === "./b.js");
  assert.deepStrictEqual(leads, [{ referrer: "file:///p/main.ts", text: "./b.js", kind: "types", to: "file:///p/b.d.ts" }]);
  assert.strictEqual(made.withoutText, 8);
});

test("calls, assets, source maps, WebAssembly, and media that names don't tell", () => {
  const span = { start: { line: 1, character: 2 }, end: { line: 1, character: 9 } };
  const range = [[1, 2], [1, 9]];
  const edge = (specifier, to, more = {}, mode = "import") => ({ specifier, code: { specifier: to, resolutionMode: mode, span }, ...more });
  const main = {
    kind: "esm",
    specifier: "https://x.test/main",
    mediaType: "TypeScript",
    size: 3,
    dependencies: [
      edge("./later.ts", "https://x.test/later.ts", { isDynamic: true }),
      edge("old", "https://x.test/old.cjs", { isDynamic: true }, "require"),
      edge("./m.wasm", "https://x.test/m.wasm", { phase: "source" }),
      edge("./n", "https://x.test/n"),
      edge("./a.bin", "https://x.test/a.bin", { assertionType: "bytes" }),
      edge("./both.ts", "https://x.test/both.ts", { type: { specifier: "https://x.test/both.ts", span } }),
    ],
    maybeSourceMapDependency: { specifier: "main.map", dependency: { specifier: "https://x.test/main.map", span } },
  };
  const wasm = { kind: "wasm", specifier: "https://x.test/n", size: 1000, dependencies: [edge("env", "https://x.test/env.js")] };
  const asset = (specifier) => ({ kind: "external", specifier });
  const modules = [main, wasm, asset("https://x.test/m.wasm"), asset("https://x.test/a.bin"), asset("https://x.test/main.map")];
  const world = new WorldOfInfo({ roots: [main.specifier], modules }).world();
  assert.deepStrictEqual(faults(world), []);
  assert.deepStrictEqual(world.sources[main.specifier], { kind: "module", text: "   ", headers: { "content-type": "text/typescript" } });
  const { base64, headers } = world.sources[wasm.specifier];
  assert.deepStrictEqual([Buffer.from(base64, "base64").length, headers], [1000, { "content-type": "application/wasm" }]);
  assert.ok(WebAssembly.validate(Buffer.from(base64, "base64")));
  assert.deepStrictEqual(world.sources["https://x.test/m.wasm"], { kind: "external" });
  assert.strictEqual(world.bytes, true);
  const { dependencies, sourceMapUrl } = world.infos[main.specifier];
  assert.deepStrictEqual(dependencies.slice(0, 2), [
    { type: "dynamic", kind: "import", argument: "./later.ts", argumentRange: range },
    { type: "dynamic", kind: "require", argument: "old", argumentRange: range },
  ]);
  assert.deepStrictEqual(dependencies.slice(2).map((it) => it.kind), ["importSource", "import", "import", "import", "importType"]);
  assert.deepStrictEqual(sourceMapUrl, { text: "main.map", range });
  assert.ok(world.resolutions.some((it) => it.text === "main.map" && it.kind === "code" && it.to === "https://x.test/main.map"));
  assert.ok(!world.resolutions.some((it) => it.text === "main.map" && it.kind === "types"));
  assert.deepStrictEqual(world.infos[wasm.specifier].dependencies.map((it) => it.specifier), ["env"]);
});

test("the text is that of the file where Deno keeps it, without Deno's own last line", () => {
  inFolder({ "a.ts": "let a;\n\n// denoCacheMetadata={}" }, (folder) => {
    const module = { kind: "esm", specifier: "file:///a.ts", size: 7, local: path.join(folder, "a.ts"), mediaType: "TypeScript" };
    const world = new WorldOfInfo({ roots: [module.specifier], modules: [module] }).world();
    assert.deepStrictEqual(world.sources[module.specifier], { kind: "module", text: "let a;\n" });
  });
});

test("differences, module by module and import by import", () => {
  assert.deepStrictEqual(compareGraphs(info, info), { lines: [], counts: { modules: 11, edges: 10 } });
  const other = copy();
  const [main, a] = other.modules;
  a.size = 41;
  main.dependencies.splice(3, 1);
  main.dependencies[0].code.span.start.character = 21;
  main.dependencies[1].type.specifier = "file:///p/types.ts";
  main.dependencies[3].isDynamic = false;
  other.modules = other.modules.filter((it) => it.kind !== "npm");
  assert.deepStrictEqual(compareGraphs(other, info).lines.sort(), [
    "file:///p/a.ts: size 41; Deno has 40",
    'file:///p/main.ts "./a.ts": place 1:22 to 1:29; Deno has 1:21 to 1:29',
    'file:///p/main.ts "./b.js": types file:///p/types.ts; Deno has file:///p/b.d.ts',
    'file:///p/main.ts "./gone.ts": only Deno has it',
    'file:///p/main.ts "./later.ts": dynamic false; Deno has true',
    "npm:/chalk@5.3.0: only Deno has it",
  ]);
});

test("the commands", () => {
  const made = runTool("world_of_deno_info", [], JSON.stringify(info));
  assert.strictEqual(made.status, 0);
  assert.match(made.err, /: 8 modules stand without their content/);
  inFolder({ "same.json": JSON.stringify(info), "g.json": JSON.stringify({ ...info, roots: [] }), "x.json": "{}" }, (folder) => {
    const same = runTool("compare_with_deno", [FILE, path.join(folder, "same.json")]);
    const out = "11 modules and 10 imports compared, 0 differences\n";
    assert.deepStrictEqual(same, { status: 0, out, err: "" });
    assert.strictEqual(runTool("compare_with_deno", [FILE, path.join(folder, "g.json")]).status, 1);
    assert.strictEqual(runTool("compare_with_deno", [path.join(folder, "x.json")]).status, 2);
    assert.strictEqual(runTool("world_of_deno_info", [path.join(folder, "x.json")]).status, 2);
  });
});
