// What a text imports. The places are counted by hand.
"use strict";
const assert = require("node:assert");
const { test } = require("node:test");
const { infoOf } = require("../lib/imports.js");
const { ts, withTypeScript } = require("./helper.js");

const info = (extension, text) => infoOf(ts, `file:///a.${extension}`, extension, text);
const imports = (extension, text) => info(extension, text).dependencies;

function staticImport(kind, specifier, line, start, more = {}) {
  return { type: "static", kind, specifier, specifierRange: [[line, start], [line, start + specifier.length + 2]], ...more };
}

test("each kind of static import, in the order of the text", withTypeScript, () => {
  const text = `import a from "a";
import type b from "b";
export * from "c";
export type { d } from "d";
import e = require("e");
export import f = require("f");
let g: import("g").G;
declare module "h" {}
import "i";
import defer * as j from "j";
import source k from "k";
`;
  assert.deepStrictEqual(imports("ts", text), [
    staticImport("import", "a", 0, 14),
    staticImport("importType", "b", 1, 19),
    staticImport("export", "c", 2, 14),
    staticImport("exportType", "d", 3, 23),
    staticImport("importEquals", "e", 4, 19),
    staticImport("exportEquals", "f", 5, 26),
    staticImport("importType", "g", 6, 14),
    staticImport("maybeTsModuleAugmentation", "h", 7, 15),
    staticImport("import", "i", 8, 7, { sideEffect: true }),
    staticImport("importDefer", "j", 9, 25),
    staticImport("importSource", "k", 10, 21),
  ]);
});

test("places are lines and UTF-16 characters, a byte order mark not counted", withTypeScript, () => {
  const [first] = imports("ts", '\ufeff/* 🦕 */ import "./a.ts";\r\n');
  assert.deepStrictEqual(first.specifierRange, [[0, 16], [0, 24]]);
  const [second] = imports("js", 'let a;\r\nimport "./b.js";');
  assert.deepStrictEqual(second.specifierRange, [[1, 7], [1, 15]]);
});

test("attributes, with the old word and the new one", withTypeScript, () => {
  const known = { known: { type: { known: "json" } } };
  const text = 'import a from "./a.json" with { type: "json" };\nimport b from "./b.json" with {\n  "type": "json"\n};\nimport "c";\n';
  const [a, b, c] = imports("ts", text);
  assert.deepStrictEqual([a.importAttributes, b.importAttributes], [known, known]);
  assert.deepStrictEqual(c.specifierRange, [[4, 7], [4, 10]]);
  assert.strictEqual(imports("js", 'import("a", { with: { type: kind } })')[0].importAttributes.known.type, "unknown");
  assert.strictEqual(imports("js", 'import("a", options)')[0].importAttributes, "unknown");
});

test("the resolution mode of a type", withTypeScript, () => {
  const [a] = imports("ts", 'let a: import("a", { assert: { "resolution-mode": "require" } }).A;');
  assert.deepStrictEqual(a.importAttributes, { known: { "resolution-mode": { known: "require" } } });
  const { jsdocImports } = info("js", '/** @type {import("a", { assert: { "resolution-mode": "import" } }).A} */\nlet a;');
  assert.deepStrictEqual(jsdocImports, [{ text: "a", range: [[0, 18], [0, 21]], resolutionMode: "import" }]);
});

test("dynamic imports with a text, a template, a sum and any other argument", withTypeScript, () => {
  const text = "import('./a.js');import(`./${b}/c.js`);import('./' + d + '.js');import(e);import(`f`);await import.defer('g');";
  const found = imports("js", text).map(({ kind, argument }) => [kind, argument]);
  const [part, any] = [(value) => ({ type: "string", value }), { type: "expr" }];
  assert.deepStrictEqual(found, [
    ["import", "./a.js"],
    ["import", [part("./"), any, part("/c.js")]],
    ["import", [part("./"), any, part(".js")]],
    ["import", undefined],
    ["import", "f"],
    ["importDefer", "g"],
  ]);
  assert.deepStrictEqual(imports("js", text)[0].argumentRange, [[0, 7], [0, 15]]);
});

test("a sum of many texts needs no stack", withTypeScript, () => {
  const many = Array(20000).fill("'a'").join("+");
  assert.deepStrictEqual(imports("js", `import(${many})`).map((it) => it.argument), ["a".repeat(20000)]);
});

test("calls of require count in scripts, and where the name is the loader's", withTypeScript, () => {
  const text = 'require("a"); function f(require) { require("b"); }';
  assert.deepStrictEqual(imports("cjs", text).map((it) => it.argument), ["a"]);
  assert.strictEqual(info("cjs", text).script, true);
  assert.strictEqual(imports("js", `${text} export {};`), undefined);
  assert.strictEqual(info("js", "await 1;").script, undefined);
  assert.strictEqual(info("mjs", "1;").script, undefined);
});

test("what comments say", withTypeScript, () => {
  const text = `/** @jsxImportSource preact */
/** @jsxImportSourceTypes @types/preact */
/// <reference path="./a.d.ts" />
/// <reference types='node' resolution-mode="require" />
// @ts-self-types="./self.d.ts"
// @ts-types="./b.d.ts"
import b from "./b.js";
//# sourceMappingURL=a.js.map
`;
  const found = info("tsx", text);
  assert.deepStrictEqual(found.jsxImportSource, { text: "preact", range: [[0, 21], [0, 27]] });
  assert.deepStrictEqual(found.jsxImportSourceTypes, { text: "@types/preact", range: [[1, 26], [1, 39]] });
  assert.deepStrictEqual(found.tsReferences, [
    { type: "path", text: "./a.d.ts", range: [[2, 20], [2, 30]] },
    { type: "types", text: "node", range: [[3, 21], [3, 27]], resolutionMode: "require" },
  ]);
  assert.deepStrictEqual(found.selfTypesSpecifier, { text: "./self.d.ts", range: [[4, 18], [4, 31]] });
  assert.deepStrictEqual(found.dependencies[0].typesSpecifier, { text: "./b.d.ts", range: [[5, 13], [5, 23]] });
  assert.deepStrictEqual(found.sourceMapUrl, { text: "a.js.map", range: [[7, 21], [7, 29]] });
});

test("imports in JSDoc, of JavaScript alone", withTypeScript, () => {
  const text = '/** @import { A } from "./a.ts" */\n/** @type {import("./b.ts").B} */\nlet c;\n';
  assert.deepStrictEqual(info("js", text).jsdocImports, [
    { text: "./a.ts", range: [[0, 23], [0, 31]] },
    { text: "./b.ts", range: [[1, 18], [1, 26]] },
  ]);
  assert.strictEqual(info("ts", text).jsdocImports, undefined);
});

test("a syntax error is the analyzer's fault", withTypeScript, () => {
  const { error, ...rest } = info("js", "let a;\nlet = ;");
  assert.deepStrictEqual(rest, {});
  assert.strictEqual(error.class, "SyntaxError");
  assert.match(error.message, /^The module's source code could not be parsed: .* at file:\/\/\/a\.js:2:\d+$/);
});
