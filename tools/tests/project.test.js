// Worlds of small projects.
"use strict";
const assert = require("node:assert");
const path = require("node:path");
const { test } = require("node:test");
const { pathToFileURL } = require("node:url");
const { Fault } = require("../lib/words.js");
const { PROJECTS, inFolder, isWorld, runTool, withTypeScript, worldOf } = require("./helper.js");

const SHOP = path.join(PROJECTS, "shop");

test("a TypeScript project with node_modules", withTypeScript, () => {
  const { world, sources, leads } = worldOf(SHOP, ["src/main.ts"]);
  assert.ok(isWorld(world));
  assert.strictEqual(world.kind, "code");
  assert.deepStrictEqual(world.jsx, { source: "tiny-jsx" });
  assert.deepStrictEqual(sources["src/catalogue.json"], { kind: "module", text: '{ "pen": 2 }\n' });
  assert.deepStrictEqual(sources["src/style.css"], { kind: "external" });
  assert.ok("src/report.ts" in sources, "a dynamic import is followed");
  assert.ok("node_modules/slugger/lib/clean.js" in sources, "so is a call of require");
  assert.deepStrictEqual(leads.filter((it) => it.startsWith("src/main.ts")), [
    "src/main.ts code path -> node:path",
    "src/main.ts code slugger -> node_modules/slugger/lib/index.js",
    "src/main.ts code dual -> node_modules/dual/index.mjs",
    "src/main.ts code @scope/units/length -> node_modules/@scope/units/lib/length.js",
    "src/main.ts code shop/money -> src/money.ts",
    "src/main.ts code #config -> src/config.node.ts",
    "src/main.ts code ./cart -> src/cart.ts",
    "src/main.ts code ./view.js -> src/view.tsx",
    "src/main.ts code @/log -> src/log.ts",
    "src/main.ts code ./types -> src/types.ts",
    "src/main.ts code ./report -> src/report.ts",
  ]);
  assert.ok(leads.includes("src/view.tsx code tiny-jsx/jsx-runtime -> node_modules/tiny-jsx/runtime.js"));
});

test("the same project with types, and with other conditions", withTypeScript, () => {
  const { world, sources, leads } = worldOf(SHOP, ["src/main.ts"], { isTyped: true, conditions: [] });
  assert.ok(isWorld(world));
  assert.strictEqual(world.kind, "all");
  assert.ok("node_modules/@types/slugger/index.d.ts" in sources);
  assert.ok(leads.includes("src/main.ts types dual -> node_modules/dual/index.d.ts"));
  assert.ok(leads.includes("src/main.ts types slugger -> node_modules/@types/slugger/index.d.ts"));
  assert.ok(leads.includes("src/main.ts code #config -> src/config.ts"));
});

test("what a world has otherwise than the project, unless it is to be as written", withTypeScript, () => {
  const json = (infos) => infos["src/main.ts"].dependencies.find((it) => it.specifier === "./catalogue.json").importAttributes;
  const { infos, lines } = worldOf(SHOP, ["src/main.ts"]);
  assert.deepStrictEqual(json(infos), { known: { type: { known: "json" } } });
  assert.deepStrictEqual(lines, [
    'imports of JSON without an attribute, which have the type "json": 1',
    "modules of no kind that a graph has (.css), which stand as external: 1",
  ]);
  const written = worldOf(SHOP, ["src/main.ts"], { isAsWritten: true });
  assert.strictEqual(json(written.infos), undefined);
  assert.deepStrictEqual(written.sources["src/style.css"], { kind: "module", text: "main { color: black; }\n" });
  assert.deepStrictEqual(written.lines, []);
});

test("without what only dynamic imports and calls of require reach", withTypeScript, () => {
  const { world, sources } = worldOf(SHOP, ["src/main.ts"], { skipsDynamic: true });
  assert.ok(isWorld(world));
  assert.strictEqual(world.skip_dynamic_deps, true);
  assert.ok(!("src/report.ts" in sources) && !("node_modules/slugger/lib/clean.js" in sources));
  assert.ok("src/catalogue.json" in sources);
});

test("what isn't found is listed, and is a missing module", withTypeScript, () => {
  const files = { "a.js": 'import "./b.js";\nimport "gone/x";\nimport "https://x.test/c.js";\n', "c.js": "let = ;" };
  inFolder(files, (folder) => {
    const { lines, leads, world } = worldOf(folder, ["a.js", "c.js"]);
    assert.ok(isWorld(world));
    assert.deepStrictEqual(lines.slice(0, 3), [
      'not found: "./b.js" (a.js:1:8): there is no such file',
      'not found: "gone/x" (a.js:2:8): there is no package gone',
      'not found: "https://x.test/c.js" (a.js:3:8): only files are read',
    ]);
    assert.match(lines[3], /could not be parsed/);
    assert.deepStrictEqual(leads, ["a.js code gone/x -> node_modules/gone/x"]);
  });
});

test("nothing is read outside of the root but node_modules on the way up", withTypeScript, () => {
  const files = {
    "node_modules/up/package.json": '{"name":"up","main":"main.js"}',
    "node_modules/up/main.js": 'import "./inner.js";',
    "node_modules/up/inner.js": "",
    "package.json": "no JSON: reading it would be a fault",
    "secret.js": "",
    "app/a.js": 'import "up";\nimport "../secret.js";\nimport "./link.js";\n',
    "app/link.js": { link: "../secret.js" },
  };
  inFolder(files, (folder) => {
    const { lines, world } = worldOf(path.join(folder, "app"), ["a.js"]);
    const names = Object.keys(world.sources).map((it) => it.replace(`${pathToFileURL(folder).href}/`, ""));
    assert.deepStrictEqual(names, ["app/a.js", "node_modules/up/inner.js", "node_modules/up/main.js"]);
    assert.strictEqual(lines.length, 2);
    lines.forEach((it) => assert.match(it, /it stands outside of the root$/));
    assert.throws(() => worldOf(path.join(folder, "app"), ["../secret.js"]), Fault);
  });
});

test("an import map, data: URLs, folders, links, types beside a file", withTypeScript, () => {
  const files = {
    "a.js": 'import "lib/x.js";\nimport "./dir";\nimport "data:text/javascript,import%20%22./no.js%22";\nimport "./same.js?1";\n',
    "map.json": '{"imports":{"lib/":"./vendor/"}}',
    "vendor/x.js": "",
    "vendor/x.d.ts": "",
    "dir/index.js": "",
    "real.js": "",
    "same.js": { link: "real.js" },
  };
  inFolder(files, (folder) => {
    const { leads, sources } = worldOf(folder, ["a.js"], { importMap: path.join(folder, "map.json"), isTyped: true });
    assert.ok("data:text/javascript,import%20%22./no.js%22" in sources);
    assert.deepStrictEqual(leads, [
      "a.js code lib/x.js -> vendor/x.js",
      "a.js types lib/x.js -> vendor/x.d.ts",
      "a.js code ./dir -> dir/index.js",
      "a.js types ./dir -> dir/index.js",
      "a.js code ./same.js?1 -> real.js?1",
      "a.js types ./same.js?1 -> real.js?1",
    ]);
  });
});

test("what comments and declarations name, with types alone", withTypeScript, () => {
  const head = '/// <reference path="a.d.ts" />\n/// <reference types="kit" />\n';
  const files = {
    "main.ts": `${head}// @ts-types="./typed.d.ts"\nimport "./plain.js";\nexport type T = import("./t.ts").T;\ndeclare module "./gone" {}\n`,
    "a.d.ts": 'import "./inner";',
    "inner.d.ts": "",
    "typed.d.ts": "",
    "plain.js": '/** @type {import("./t.ts").T} */\nlet t;\n// @ts-self-types="./self.d.ts"\n',
    "self.js": '// @ts-self-types="./self.d.ts"\n',
    "self.d.ts": "",
    "t.ts": "export type T = 1;",
    "node_modules/@types/kit/index.d.ts": "",
  };
  inFolder(files, (folder) => {
    const { sources, leads, lines } = worldOf(folder, ["main.ts", "self.js"], { isTyped: true });
    assert.deepStrictEqual(Object.keys(sources), [
      "a.d.ts",
      "inner.d.ts",
      "main.ts",
      "node_modules/@types/kit/index.d.ts",
      "plain.js",
      "self.d.ts",
      "self.js",
      "t.ts",
      "typed.d.ts",
    ]);
    assert.deepStrictEqual(leads, [
      "main.ts types a.d.ts -> a.d.ts",
      "main.ts types kit -> node_modules/@types/kit/index.d.ts",
      "a.d.ts types ./inner -> inner.d.ts",
    ]);
    assert.deepStrictEqual(lines, []);
    const plain = worldOf(folder, ["main.ts"]);
    assert.deepStrictEqual(Object.keys(plain.sources), ["main.ts", "plain.js"]);
  });
});

test("texts that no file can stand at", withTypeScript, () => {
  const imports = ['import "./100%.js";', 'import "./a%2Fb.js";', 'import "file://host/c.js";', 'import "http://[";', 'import "./%E0.js";'];
  inFolder({ "100%.js": "", "main.js": imports.join("\n") }, (folder) => {
    const { sources, lines } = worldOf(folder, ["main.js"]);
    assert.deepStrictEqual(Object.keys(sources).sort(), ["100%25.js", "main.js"]);
    assert.deepStrictEqual(lines.map((it) => it.replace(/.*:\d+\): /, "")), [
      "no file of this machine can stand there",
      "no file of this machine can stand there",
      "http://[ is no URL",
      "there is no such file",
    ]);
  });
});

test("names that a URL writes otherwise", withTypeScript, () => {
  const names = ["a b.js", "\u00fc.js", "100%.js", "what?.js", "n#1.js", "~.js"];
  const texts = ["a b", "\u00fc", "100%25", "what%3F", "n%231", "~"];
  const files = Object.fromEntries(names.map((it) => [it, ""]));
  inFolder({ ...files, "main.js": texts.map((it) => `import "./${it}.js";`).join("\n") }, (folder) => {
    const { sources, leads, lines } = worldOf(folder, ["main.js"]);
    assert.deepStrictEqual(Object.keys(sources).sort(), [
      "%C3%BC.js",
      "100%25.js",
      "a%20b.js",
      "main.js",
      "n%231.js",
      "what%3F.js",
      "~.js",
    ]);
    assert.deepStrictEqual([leads, lines], [[], []]);
  });
});

test("half a surrogate pair in a text", withTypeScript, () => {
  inFolder({ "a.js": 'import "./\\ud800.js";', "\ufffd.js": "" }, (folder) => {
    const { status, out, err } = runTool("world_of_project", ["--root", folder, path.join(folder, "a.js")]);
    assert.deepStrictEqual([status, err, isWorld(JSON.parse(out))], [0, "", true]);
    const { infos } = JSON.parse(out);
    assert.strictEqual(infos[pathToFileURL(path.join(folder, "a.js")).href].dependencies[0].specifier, "./\ufffd.js");
    assert.strictEqual(runTool("check_world", ["-"], out).status, 0);
  });
});

test("a fault of the caller has status 2 and a message", withTypeScript, () => {
  const main = path.join(SHOP, "src/main.ts");
  const rows = [
    [[], /no entry/],
    [["--bad", main], /unknown option --bad/],
    [["--root"], /wants a value/],
    [["--root", SHOP, `${main}x`], /there is no file/],
    [["--root", path.join(SHOP, "src"), path.join(SHOP, "package.json")], /isn't below the root/],
    [["--root", SHOP, "--import-map", main, main], /is no JSON/],
  ];
  for (const [words, message] of rows) {
    const { status, out, err } = runTool("world_of_project", words);
    assert.deepStrictEqual([status, out], [2, ""]);
    assert.match(err, message);
  }
  inFolder({ "package.json": "{", "a.js": 'import "b";' }, (folder) => {
    assert.throws(() => worldOf(folder, ["a.js"]), /package\.json is no JSON/);
  });
});
