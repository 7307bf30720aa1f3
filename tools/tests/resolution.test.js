// Where texts lead: package.json by the examples of Node.js' documentation, import maps by those of the HTML Standard.
"use strict";
const assert = require("node:assert");
const { test } = require("node:test");
const { ImportMap } = require("../lib/import_map.js");
const { exportTarget, importTarget } = require("../lib/package_targets.js");

test("exports", () => {
  const exports = {
    ".": "./index.js",
    "./submodule.js": "./src/submodule.js",
    "./features/*.js": "./src/features/*.js",
    "./features/private-internal/*": null,
  };
  const target = (subpath) => exportTarget(exports, subpath, new Set(["import"]));
  assert.strictEqual(target("."), "./index.js");
  assert.strictEqual(target("./submodule.js"), "./src/submodule.js");
  assert.strictEqual(target("./features/y/y.js"), "./src/features/y/y.js");
  assert.strictEqual(target("./features/private-internal/m.js"), null);
  assert.strictEqual(target("./private-module.js"), undefined);
  assert.strictEqual(exportTarget("./index.js", ".", new Set()), "./index.js");
  assert.strictEqual(exportTarget(["x", "./b.js"], ".", new Set()), "x");
});

test("conditions, in the order of the file", () => {
  const exports = { node: { import: "./feature-node.mjs", require: "./feature-node.cjs" }, default: "./feature.mjs" };
  assert.strictEqual(exportTarget(exports, ".", new Set(["node", "import"])), "./feature-node.mjs");
  assert.strictEqual(exportTarget(exports, ".", new Set(["node", "require"])), "./feature-node.cjs");
  assert.strictEqual(exportTarget(exports, ".", new Set(["import"])), "./feature.mjs");
});

test("imports", () => {
  const imports = { "#dep": { node: "dep-node-native", default: "./dep-polyfill.js" }, "#internal/*.js": "./src/internal/*.js" };
  assert.strictEqual(importTarget(imports, "#dep", new Set(["node"])), "dep-node-native");
  assert.strictEqual(importTarget(imports, "#dep", new Set()), "./dep-polyfill.js");
  assert.strictEqual(importTarget(imports, "#internal/z.js", new Set()), "./src/internal/z.js");
  assert.strictEqual(importTarget(undefined, "#dep", new Set()), undefined);
});

test("an import map", () => {
  const json = {
    imports: { a: "/a-1.mjs", "b/": "./b/", "https://x.test/app.js": "/app-2.js", no: null },
    scopes: { "/scope2/": { a: "/a-2.mjs" }, "/scope2/scope3/": { a: "/a-3.mjs" } },
  };
  const map = new ImportMap(json, "file:///map.json");
  assert.strictEqual(map.lookUp("a", "file:///m.js"), "file:///a-1.mjs");
  assert.strictEqual(map.lookUp("a", "file:///scope2/m.js"), "file:///a-2.mjs");
  assert.strictEqual(map.lookUp("a", "file:///scope2/scope3/m.js"), "file:///a-3.mjs");
  assert.strictEqual(map.lookUp("b/c.js", "file:///m.js"), "file:///b/c.js");
  assert.strictEqual(map.lookUp("https://x.test/app.js", "file:///m.js"), "file:///app-2.js");
  assert.strictEqual(map.lookUp("no", "file:///m.js"), null);
  assert.strictEqual(map.lookUp("b/../../c.js", "file:///m.js"), null);
  assert.strictEqual(map.lookUp("other", "file:///m.js"), undefined);
});
