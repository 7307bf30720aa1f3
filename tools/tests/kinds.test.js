// Worlds of projects with each kind of import and module.
"use strict";
const assert = require("node:assert");
const { test } = require("node:test");
const { inFolder, isWorld, withTypeScript, worldOf } = require("./helper.js");

const known = (type) => ({ known: { type: { known: type } } });
/** A WebAssembly module that imports a function `f` of `./lib.js` and a memory `m` of `env`. */
const WASM = Buffer.from("\0asm\x01\0\0\0\x01\x04\x01\x60\0\0\x02\x17\x02\x08./lib.js\x01f\0\0\x03env\x01m\x02\0\x01", "latin1");

test("dynamic imports with a text, and with an argument that nobody knows", withTypeScript, () => {
  const files = {
    "a.js": 'import("./b.js");\nimport("./c.js", { with: { type: "text" } });\nimport(name);\nimport("./" + name + "x/y.js");\n',
    "b.js": 'import.defer("./d.js");',
    "c.js": 'import "./no.js";',
    "d.js": "export {};",
  };
  inFolder(files, (folder) => {
    const { world, sources, infos, lines } = worldOf(folder, ["a.js"]);
    assert.ok(isWorld(world));
    assert.deepStrictEqual(Object.keys(sources), ["a.js", "b.js", "c.js", "d.js"]);
    assert.deepStrictEqual(infos["a.js"].dependencies.map((it) => typeof it.argument), ["string", "string", "undefined", "object"]);
    assert.deepStrictEqual(infos["b.js"].dependencies[0].kind, "importDefer");
    assert.ok(!("c.js" in infos), "an asset isn't read");
    assert.deepStrictEqual(lines, [
      "calls whose argument is no text and no template, which the graph passes over: 1",
      "templates that stand for no file, which the graph passes over: 1",
    ]);
  });
});

test("a template stands for the files that fit it, which the tree has", withTypeScript, () => {
  const files = {
    "app/main.js": "import(`./lang/${name}.js`);\nimport(`./lang/${name}.json`, { with: { type: 'json' } });\n",
    "app/lang/de.js": 'import "./all.js";',
    "app/lang/all.js": "",
    "app/lang/old/en.js": "",
    "app/lang/fr.json": "{}",
    "app/lang/it.ts": "",
    "app/lang/it.d.ts": "",
    "app/lang/.git/no.js": "",
    "app/lang/node_modules/no.js": "",
    "app/lang/vendor/no.js": "",
    "app/lang/link.js": { link: "de.js" },
    "app/other.js": "",
  };
  inFolder(files, (folder) => {
    const { world, sources } = worldOf(folder, ["app/main.js"]);
    assert.ok(isWorld(world));
    assert.deepStrictEqual(Object.keys(sources), ["app/lang/all.js", "app/lang/de.js", "app/lang/fr.json", "app/lang/old/en.js", "app/main.js"]);
    const tree = ["all.js", "de.js", "fr.json", "it.ts", "old/en.js"].map((it) => `${folder}/app/lang/${it}`);
    assert.deepStrictEqual(world.tree, tree);
    assert.strictEqual(worldOf(folder, ["app/other.js"]).world.tree, undefined);
  });
});

test("a template of a package, and one that leads out of the root", withTypeScript, () => {
  const files = {
    "app/main.js": "import 'kit';\nimport(`file:///etc/${name}.js`);\n",
    "app/node_modules/kit/index.js": "import('./parts/' + name);",
    "app/node_modules/kit/parts/one.js": "",
  };
  inFolder(files, (folder) => {
    const { world, lines } = worldOf(`${folder}/app`, ["main.js"]);
    assert.deepStrictEqual(world.tree, [`${folder}/app/node_modules/kit/parts/one.js`]);
    assert.deepStrictEqual(lines, ["templates that stand for no file, which the graph passes over: 1"]);
  });
});

test("WebAssembly modules, and what they import", withTypeScript, () => {
  const files = {
    "a.js": 'import source b from "./b.wasm";\nimport defer * as c from "./c.js";\n',
    "b.wasm": WASM,
    "c.js": 'import * as d from "./d.wasm";',
    "d.wasm": WASM,
    "bad.wasm": "no",
    "lib.js": 'import "./bad.wasm";',
  };
  inFolder(files, (folder) => {
    const { world, sources, infos, lines } = worldOf(folder, ["a.js"]);
    assert.ok(isWorld(world));
    assert.deepStrictEqual(sources["b.wasm"], { kind: "module", base64: WASM.toString("base64") });
    assert.deepStrictEqual(sources["bad.wasm"], { kind: "module", base64: "bm8=" });
    assert.deepStrictEqual(infos["a.js"].dependencies.map((it) => it.kind), ["importSource", "importDefer"]);
    assert.ok(!("b.wasm" in infos), "a source phase import keeps it at hand");
    assert.deepStrictEqual(infos["d.wasm"], {
      dependencies: [
        { type: "static", kind: "import", specifier: "./lib.js", specifierRange: [[0, 46], [0, 56]] },
        { type: "static", kind: "import", specifier: "env", specifierRange: [[1, 46], [1, 51]] },
      ],
    });
    assert.deepStrictEqual(lines, [
      'not found: "env" (d.wasm:2:47): there is no package env',
      "WebAssembly modules that can't be read, which are errors: 1",
    ]);
  });
});

test("imports with an attribute, and the settings that they need", withTypeScript, () => {
  const types = { "a.json": "json", "b.txt": "text", "c.bin": "bytes", "d.css": "css", "e.toml": "toml" };
  const lines = Object.entries(types).map(([name, type], place) => `import x${place} from "./${name}" with { type: "${type}" };`);
  const files = { "main.js": lines.join("\n"), "c.bin": Buffer.of(0xff), "plain.js": 'import "./d.css";', "note.txt": "" };
  for (const name of ["a.json", "b.txt", "d.css", "e.toml"]) files[name] = "{}";
  inFolder(files, (folder) => {
    const { world, sources, infos, lines: told } = worldOf(folder, ["main.js"]);
    assert.ok(isWorld(world));
    assert.deepStrictEqual(infos["main.js"].dependencies.map((it) => it.importAttributes), Object.values(types).map(known));
    const text = { kind: "module", text: "{}" };
    assert.deepStrictEqual({ ...sources, "main.js": undefined }, {
      "a.json": text,
      "b.txt": text,
      "c.bin": { kind: "module", base64: "/w==" },
      "d.css": text,
      "e.toml": { kind: "external" },
      "main.js": undefined,
    });
    assert.deepStrictEqual([world.bytes, world.css, world.config], [true, true, true]);
    assert.deepStrictEqual(told, ["modules of no kind that a graph has (.toml), which stand as external: 1"]);
    const both = worldOf(folder, ["main.js", "plain.js"]);
    assert.deepStrictEqual(both.sources["d.css"], { kind: "external" }, "an import without an attribute names it as well");
    const none = worldOf(folder, ["plain.js"]).world;
    assert.deepStrictEqual([none.bytes, none.css, none.config], [undefined, undefined, undefined]);
  });
});

test("JSON without an attribute has one in the world where a declaration imports it", withTypeScript, () => {
  const files = {
    "a.ts": 'import a from "./a.json";\nexport * from "./b.json";\nimport c = require("./c.json");\nimport type D from "./d.json";\n',
    "e.ts": 'import("./a.json");\nimport a from "./a.json" with { type: "text" };\nimport b from "./b.json" with { lang: "en" };\n',
    "f.cjs": 'require("./a.json");',
  };
  for (const name of ["a", "b", "c", "d"]) files[`${name}.json`] = "{}";
  inFolder(files, (folder) => {
    const { infos, sources, lines } = worldOf(folder, ["a.ts", "e.ts", "f.cjs"], { isTyped: true });
    const json = known("json");
    assert.deepStrictEqual(infos["a.ts"].dependencies.map((it) => it.importAttributes), [json, json, json, json]);
    const both = { known: { lang: { known: "en" }, type: { known: "json" } } };
    assert.deepStrictEqual(infos["e.ts"].dependencies.map((it) => it.importAttributes), [undefined, known("text"), both]);
    assert.deepStrictEqual(infos["f.cjs"].dependencies.map((it) => it.importAttributes), [undefined]);
    assert.deepStrictEqual(sources["d.json"], { kind: "module", text: "{}" });
    assert.deepStrictEqual(lines, ['imports of JSON without an attribute, which have the type "json": 5']);
  });
});

test("source maps: beside a module, within it, and none", withTypeScript, () => {
  const inline = "data:application/json;base64,e30=";
  const files = {
    "a.js": 'import "./b.js";\nimport "./c.js";\n//# sourceMappingURL=maps/a.js.map\n',
    "b.js": `let b;\n//# sourceMappingURL=${inline}\n// the end`,
    "c.js": 'let c = "\\\n//# sourceMappingURL=no.map";\n/*# sourceMappingURL=c.js.map */',
    "maps/a.js.map": "{}",
  };
  inFolder(files, (folder) => {
    const { world, sources, infos, leads, lines } = worldOf(folder, ["a.js"]);
    assert.ok(isWorld(world));
    assert.deepStrictEqual(infos["a.js"].sourceMapUrl, { text: "maps/a.js.map", range: [[2, 21], [2, 34]] });
    assert.deepStrictEqual(infos["b.js"].sourceMapUrl, { text: inline, range: [[1, 21], [1, 21 + inline.length]] });
    assert.strictEqual(infos["c.js"].sourceMapUrl, undefined);
    assert.deepStrictEqual(Object.keys(sources), [inline, "a.js", "b.js", "c.js", "maps/a.js.map"]);
    assert.deepStrictEqual([sources[inline], sources["maps/a.js.map"]], [{ kind: "data" }, { kind: "module", text: "{}" }]);
    assert.deepStrictEqual(leads, ["a.js code maps/a.js.map -> maps/a.js.map"]);
    assert.deepStrictEqual(lines, ["source maps that aren't there, which are left out: 1"]);
    const written = worldOf(folder, ["a.js"], { isAsWritten: true });
    assert.strictEqual(written.infos["c.js"].sourceMapUrl.text, "c.js.map");
    assert.deepStrictEqual(written.leads[1], "c.js code c.js.map -> c.js.map");
    assert.deepStrictEqual(written.lines, ["source maps that aren't there, which are missing modules: 1"]);
  });
});

test("scripts without extension, in UTF-16, and in no known charset", withTypeScript, () => {
  const utf16 = Buffer.from('\ufeffimport "./b.js";', "utf16le");
  const files = { tool: 'require("./part"); require("./a.js");', part: "", "a.js": utf16, "b.js": Buffer.of(0x2f, 0x2f, 0xfc) };
  inFolder(files, (folder) => {
    const { world, sources, infos, lines } = worldOf(folder, ["tool"]);
    assert.ok(isWorld(world));
    const headers = { "content-type": "text/javascript" };
    assert.deepStrictEqual([sources.tool.headers, sources.part.headers], [headers, headers]);
    assert.deepStrictEqual(sources["a.js"], { kind: "module", base64: utf16.toString("base64") });
    assert.deepStrictEqual(infos["a.js"].dependencies[0].specifierRange, [[0, 7], [0, 15]]);
    assert.deepStrictEqual(sources["b.js"], { kind: "module", base64: "Ly/8" });
    assert.deepStrictEqual(lines, ["scripts that are neither in UTF-8 nor marked as UTF-16, which are errors: 1"]);
    const written = worldOf(folder, ["tool"], { isAsWritten: true });
    assert.deepStrictEqual(written.sources.tool, { kind: "module", text: files.tool });
    assert.ok(!("part" in written.infos) && "tool" in written.infos, "a root of no known kind is JavaScript all the same");
  });
});
