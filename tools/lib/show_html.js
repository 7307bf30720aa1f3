// A graph as one HTML page that needs nothing from outside: its style, program and data stand in it.
"use strict";
const fs = require("node:fs");
const path = require("node:path");
const { boxTree } = require("./boxes.js");
const { commonFolder, shortName } = require("./sizes.js");

const FOLDER = path.join(__dirname, "page");

/** The program of the page, in the order in which its parts need each other. */
const PROGRAM = ["layout.js", "boxes.js", "picture.js", "page.js"];

/** The text of the page. `by` says what its boxes are: see `boxesOf`. */
function htmlText(index, verdict, by) {
  const part = (name) => fs.readFileSync(path.join(FOLDER, name), "utf8").trimEnd();
  const program = PROGRAM.map(part).join("\n\n");
  const parts = { STYLE: part("page.css"), PROGRAM: program, DATA: dataText(pageData(index, verdict, by)) };
  return part("page.html").replace(/\{\{(STYLE|PROGRAM|DATA)\}\}/g, (_, name) => parts[name]) + "\n";
}

/** JSON that stands in an element `script`, whose text no "<" may end. */
function dataText(data) {
  return JSON.stringify(data).replaceAll("<", "\\u003c");
}

/** What the page's program reads: modules with their box (-1 for none), boxes, and imports as `[from, to, kind, text, line, character]`. */
function pageData(index, verdict, by) {
  const specifiers = [...index.modules.keys()];
  const folder = commonFolder(specifiers);
  const numbers = new Map(specifiers.map((it, place) => [it, place]));
  const { boxes, placeOf } = boxTree(index, by);
  const modules = [...index.modules.values()].map((it) => ({
    specifier: it.specifier,
    name: shortName(it.specifier, folder),
    kind: it.error !== undefined ? "error" : (it.mediaType ?? it.kind),
    size: it.size,
    error: it.error,
    box: placeOf.get(it.specifier) ?? -1,
    broken: index.edges(it).filter((edge) => edge.to === undefined).map((edge) => [edge.text, edge.error]),
  }));
  const imports = [...index.modules.values()].flatMap((module) => {
    const edges = index.edges(module).filter((it) => numbers.has(it.to));
    return edges.map((it) => {
      const { line, character } = it.span.start;
      return [numbers.get(module.specifier), numbers.get(it.to), it.kind, it.text, line + 1, character + 1];
    });
  });
  const roots = index.roots.map((it) => numbers.get(index.follow(it))).filter((it) => it !== undefined);
  return { folder, verdict, roots, modules, boxes, imports };
}

module.exports = { htmlText };
