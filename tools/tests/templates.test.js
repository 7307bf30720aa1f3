// The files that templates stand for, by the rules of docs/WORLD_FILE.md.
"use strict";
const assert = require("node:assert");
const path = require("node:path");
const { test } = require("node:test");
const { pathToFileURL } = require("node:url");
const { Files } = require("../lib/files.js");
const { Templates } = require("../lib/templates.js");
const { inFolder } = require("./helper.js");

const FILES = ["main.js", "a.js", "x/a.js", "x/b.ts", "x/c.json", "x/d.d.ts", "x/e.cjs", "x/y/a.js", "x/y/z/f.mjs", "vendor/g.js", "~ h/100%.js"];
/** The parts of a template: a star stands for an expression. */
const partsOf = (text) => text.split(/(\*)/).filter((it) => it !== "").map((it) => (it === "*" ? { type: "expr" } : { type: "string", value: it }));

function inProject(use) {
  inFolder(Object.fromEntries(FILES.map((it) => [it, ""])), (folder) => {
    const templates = new Templates(new Files(folder));
    const url = (name) => new URL(pathToFileURL(path.join(folder, name)).href.replace("%7E", "~"));
    use({ templates, folder, texts: (text, name = "main.js", isJson = false) => templates.texts(partsOf(text), url(name), isJson) });
  });
}

test("the texts of each form, in ascending order", () => {
  inProject(({ texts, folder, templates }) => {
    assert.deepStrictEqual(texts("./x/*"), ["./x/a.js", "./x/b.ts", "./x/y/a.js", "./x/y/z/f.mjs"]);
    assert.deepStrictEqual(templates.tree(), ["a.js", "b.ts", "c.json", "y/a.js", "y/z/f.mjs"].map((it) => `${folder}/x/${it}`));
    assert.deepStrictEqual(texts("./x/*.js"), ["./x/a.js", "./x/y/a.js"]);
    assert.deepStrictEqual(texts("./x/*/a.js"), ["./x/y/a.js"]);
    assert.deepStrictEqual(texts("./x/*/z/*"), ["./x/y/z/f.mjs"]);
    assert.deepStrictEqual(texts("./*a.js"), ["./a.js", "./x/a.js", "./x/y/a.js"]);
    assert.deepStrictEqual(texts("./*", "a.js").filter((it) => /^\.\/[^/]*$/.test(it)), ["./main.js"], "the module itself is left out");
    assert.deepStrictEqual(texts("./x/*", "main.js", true), ["./x/c.json"]);
    assert.deepStrictEqual(texts("./vendor/*"), ["./vendor/g.js"], "the folder itself may be any");
    assert.deepStrictEqual(texts(`file://${folder}/x/*`, "x/y/a.js"), ["../a.js", "../b.ts", "./z/f.mjs"]);
    assert.deepStrictEqual(texts("./~ h/*"), [], "texts are escaped as URLs are");
    assert.deepStrictEqual(texts("./~%20h/*"), ["./~%20h/100%25.js"]);
  });
});

test("templates of no form that stands for files", () => {
  inProject(({ texts, templates }) => {
    for (const text of ["./x*", "*/a.js", "x/*", "/x/*", "./x/../x/*", "./x/*y/a.js", "./x/*y/*", "file:///*", "file://host/x/*", "./no/*", "../*"]) {
      assert.deepStrictEqual(texts(text), [], text);
    }
    assert.deepStrictEqual(templates.texts(partsOf("./x/*"), new URL("https://x.test/main.js"), false), []);
    assert.deepStrictEqual(templates.tree(), []);
  });
});
