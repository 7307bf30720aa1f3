// A graph as a tree, as `deno info` prints one: each module once with its imports, and with a star where it comes again.
"use strict";
const { shown, sizeText } = require("./sizes.js");

const PAINT = { error: "31", note: "90", count: "1" };

/** The text of the tree. `isColoured` says whether to paint it for a terminal. */
function treeText(index, verdict, isColoured) {
  const paint = (text, name) => (isColoured ? `\x1b[${PAINT[name]}m${text}\x1b[0m` : text);
  const tree = new Tree(index, paint);
  const lines = tree.head();
  for (const root of index.roots) lines.push("", ...tree.from(root));
  for (const it of index.imports) lines.push("", ...tree.configured(it));
  if (verdict !== "") lines.push("", verdict === "valid" ? verdict : paint(verdict, "error"));
  return `${lines.join("\n")}\n`;
}

class Tree {
  constructor(index, paint) {
    this.index = index;
    this.paint = paint;
    this.shown = new Set();
  }

  head() {
    const modules = [...this.index.modules.values()];
    const count = (what, list) => (list.length > 0 ? [`${this.paint(`${what}:`, "count")} ${list.length}`] : []);
    const size = modules.reduce((sum, it) => sum + (it.size ?? 0), 0);
    return [
      `${this.paint("modules:", "count")} ${modules.length} unique`,
      `${this.paint("size:", "count")} ${sizeText(size)}`,
      ...count("redirects", Object.keys(this.index.redirects)),
      ...count("errors", modules.filter((it) => it.error !== undefined)),
    ];
  }

  configured(imports) {
    const edges = this.index.edges(imports);
    return [`${imports.referrer} ${this.paint("(configured imports)", "note")}`, ...this.below(edges, "")];
  }

  from(root) {
    const to = this.index.follow(root);
    const again = this.shown.has(to);
    this.shown.add(to);
    const lines = [this.name(to, again, root === to ? "" : `${root} -> `)];
    return again ? lines : [...lines, ...this.below(this.edges(to), "")];
  }

  edges(specifier) {
    const module = this.index.modules.get(specifier);
    return module === undefined ? [] : this.index.edges(module);
  }

  /** The lines of a module's imports. A list of what is left, in the place of calls, so that a long chain needs no stack. */
  below(edges, prefix) {
    const lines = [];
    const open = [{ edges, prefix, at: 0 }];
    while (open.length > 0) {
      const level = open[open.length - 1];
      if (level.at === level.edges.length) {
        open.pop();
        continue;
      }
      const edge = level.edges[level.at++];
      const isLast = level.at === level.edges.length;
      const again = edge.to !== undefined && this.shown.has(edge.to);
      if (edge.to !== undefined) this.shown.add(edge.to);
      const inner = again || edge.to === undefined ? [] : this.edges(edge.to);
      lines.push(`${level.prefix}${isLast ? "└" : "├"}─${inner.length > 0 ? "┬" : "─"} ${this.edge(edge, again)}`);
      open.push({ edges: inner, prefix: `${level.prefix}${isLast ? " " : "│"} `, at: 0 });
    }
    return lines;
  }

  edge(edge, again) {
    const note = edge.kind === "code" ? "" : ` (${edge.kind})`;
    const told = note === "" ? "" : this.paint(note, "note");
    if (edge.to === undefined) return this.paint(`${shown(edge.text)} (${firstLine(edge.error ?? "leads nowhere")})`, "error") + told;
    return this.name(edge.to, again, "") + told;
  }

  name(specifier, again, before) {
    const module = this.index.modules.get(specifier);
    const name = shown(specifier);
    if (module === undefined) return `${before}${this.paint(`${name} (not in the graph)`, "error")}`;
    if (module.error !== undefined) return `${before}${this.paint(`${name} (${reason(module.error)})`, "error")}`;
    if (again) return `${before}${this.paint(`${name} *`, "note")}`;
    const note = module.size === undefined ? (module.kind === "esm" ? "" : ` (${module.kind})`) : ` (${sizeText(module.size)})`;
    return `${before}${name}${this.paint(note, "note")}`;
  }
}

function reason(error) {
  return /^(Module|Dynamic import) not found/.test(error) ? "missing" : firstLine(error);
}

function firstLine(text) {
  return text.split("\n")[0];
}

module.exports = { treeText };
