// The text that graph_info prints: one line of JSON, and a line (or more) with the verdict.
"use strict";
const { Fault } = require("./words.js");
const { parseJson, readBytes } = require("./json_file.js");

/** Reads a printed graph from a file, or from standard input where `file` is "-" or not given: `{ graph, verdict }`. Faults: it is none. */
function readGraph(file) {
  return readGraphText(readBytes(file).toString("utf8"), file === undefined || file === "-" ? "standard input" : file);
}

/** The same of a text, which `name` names in faults. */
function readGraphText(text, name) {
  const end = text.indexOf("\n");
  const line = end < 0 ? text : text.slice(0, end);
  if (line.trim() === "") throw new Fault(`${name} is empty: graph_info printed no graph`);
  const graph = parseJson(line, name);
  if (!Array.isArray(graph?.modules) || !Array.isArray(graph.roots)) throw new Fault(`${name} is no graph`);
  return { graph, verdict: end < 0 ? "" : text.slice(end + 1).trimEnd() };
}

/** A graph by its specifiers: `modules` maps a specifier to its module, `follow` goes over redirects. */
class GraphIndex {
  constructor(graph) {
    this.roots = graph.roots;
    this.redirects = graph.redirects ?? {};
    this.modules = new Map(graph.modules.map((it) => [it.specifier, it]));
    this.imports = graph.imports ?? [];
  }

  /** Where a specifier leads over redirects; in a circle, to the last specifier before a repeat. */
  follow(specifier) {
    const seen = new Set([specifier]);
    let at = specifier;
    while (!this.modules.has(at) && Object.hasOwn(this.redirects, at) && !seen.has(this.redirects[at])) {
      at = this.redirects[at];
      seen.add(at);
    }
    return at;
  }

  /**
   * The imports of a module, in order: `text`, `to` (followed; nothing for an error), `error`, `span` and `kind`, which is "code", "types",
   * "on demand" or "source map". A text whose types lead elsewhere than its code gives two.
   */
  edges(module) {
    const found = [];
    const add = (text, resolution, kind) => {
      if (resolution) found.push(this.edge(text, resolution, kind));
    };
    for (const it of module.dependencies ?? []) {
      add(it.specifier, it.code, it.isDynamic ? "on demand" : "code");
      add(it.specifier, it.type, "types");
    }
    const { typesDependency: types, maybeSourceMapDependency: map } = module;
    add(types?.specifier, types?.dependency, "types");
    add(map?.specifier, map?.dependency, "source map");
    return found;
  }

  edge(text, resolution, kind) {
    const to = resolution.specifier === undefined ? undefined : this.follow(resolution.specifier);
    return { text, to, error: resolution.error, kind, span: resolution.span };
  }
}

module.exports = { GraphIndex, readGraph, readGraphText };
