// A graph as text for Graphviz (the DOT language) and for Mermaid (a flowchart): its modules, or boxes of them.
"use strict";
const { boxesOf, graphOfBoxes } = require("./boxes.js");
const { commonFolder, shortName, sizeText } = require("./sizes.js");

/**
 * The nodes and edges of a diagram: `nodes` with `id`, `label`, `state`, and `edges` with `from`, `to`, `state`, and between boxes `count`.
 * `by` says what a node is: see `boxesOf`.
 */
function diagramOf(index, by) {
  const boxes = boxesOf(index, by);
  return boxes.length === 0 ? diagramOfModules(index) : diagramOfBoxes(index, boxes);
}

function diagramOfBoxes(index, boxes) {
  const { nodes, edges } = graphOfBoxes(index, boxes);
  const ids = nodes.map((_, place) => `n${place}`);
  return {
    nodes: nodes.map((it, place) => ({ id: ids[place], label: labelOf(it), state: it.errors > 0 ? "error" : "module" })),
    edges: edges.map(({ from, to, kind, count }) => ({ from: ids[from], to: ids[to], state: kind, count })),
    roots: ids.filter((_, place) => nodes[place].isRoot),
  };
}

/** What a box says: its name, and in a second line how many modules it has, their size, and how many have errors. */
function labelOf({ name, count, size, errors }) {
  const parts = [`${count} module${count === 1 ? "" : "s"}`, ...(size > 0 ? [sizeText(size)] : []), ...(errors > 0 ? [`${errors} with errors`] : [])];
  return `${name}\n${parts.join(", ")}`;
}

function diagramOfModules(index) {
  const folder = commonFolder([...index.modules.keys()]);
  const ids = new Map();
  const nodes = [];
  const idOf = (specifier) => {
    if (!ids.has(specifier)) {
      ids.set(specifier, `n${ids.size}`);
      const module = index.modules.get(specifier);
      const state = module === undefined || module.error !== undefined ? "error" : module.kind === "esm" ? "module" : "other";
      nodes.push({ id: ids.get(specifier), label: shortName(specifier, folder), state });
    }
    return ids.get(specifier);
  };
  for (const it of index.modules.keys()) idOf(it);
  const edges = [];
  for (const module of index.modules.values()) {
    for (const edge of index.edges(module)) {
      const to = edge.to ?? edge.text;
      edges.push({ from: idOf(module.specifier), to: idOf(to), state: edge.kind });
    }
  }
  return { nodes, edges, roots: index.roots.map((it) => idOf(index.follow(it))) };
}

const DOT_HEAD = `  rankdir=LR;
  node [shape=box, fontname="sans-serif", fontsize=10];
  edge [fontname="sans-serif", fontsize=9];
`;
const DOT_NODES = { error: ", color=red, fontcolor=red", other: ", style=dashed", module: "" };
const DOT_EDGES = { code: [], "on demand": ["style=dashed"], types: ["style=dotted"], "source map": ["style=dotted"] };

/** The graph in the DOT language. */
function dotText(index, by) {
  const { nodes, edges, roots } = diagramOf(index, by);
  const isRoot = new Set(roots);
  const lines = nodes.map(({ id, label, state }) => {
    return `  ${id} [label=${JSON.stringify(label)}${DOT_NODES[state]}${isRoot.has(id) ? ", penwidth=2" : ""}];`;
  });
  for (const { from, to, state, count } of edges) {
    const said = [...DOT_EDGES[state], ...(count === undefined ? [] : [`label=${count}`])];
    lines.push(`  ${from} -> ${to}${said.length > 0 ? ` [${said.join(", ")}]` : ""};`);
  }
  return `digraph modules {\n${DOT_HEAD}${lines.join("\n")}\n}\n`;
}

const MERMAID_WORDS = { code: [], "on demand": [], types: ["types"], "source map": ["source map"] };

/** An edge of Mermaid, with a text where there is one. */
function mermaidEdge(state, count) {
  const text = [...MERMAID_WORDS[state], ...(count === undefined ? [] : [count])].join(" ");
  if (state === "code") return text === "" ? "-->" : `-- ${text} -->`;
  return text === "" ? "-.->" : `-. ${text} .->`;
}

/** The graph as a flowchart of Mermaid. */
function mermaidText(index, by) {
  const { nodes, edges, roots } = diagramOf(index, by);
  const escaped = (text) => text.replace(/[#"&<>]/g, (it) => `#${it.codePointAt(0)};`);
  const label = (text) => text.split("\n").map(escaped).join("<br>");
  const lines = nodes.map((it) => `  ${it.id}["${label(it.label)}"]`);
  lines.push(...edges.map(({ from, to, state, count }) => `  ${from} ${mermaidEdge(state, count)} ${to}`));
  const marked = (state, style) => {
    const ids = state === "root" ? roots : nodes.filter((it) => it.state === state).map((it) => it.id);
    if (ids.length > 0) lines.push(`  classDef ${state} ${style}`, `  class ${[...new Set(ids)].join(",")} ${state}`);
  };
  marked("error", "stroke:#c00,color:#c00");
  marked("other", "stroke-dasharray:4");
  marked("root", "stroke-width:3px");
  return `flowchart LR\n${lines.join("\n")}\n`;
}

module.exports = { dotText, mermaidText };
