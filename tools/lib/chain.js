// A shortest chain of imports from a root to a module.
"use strict";
const { shown } = require("./sizes.js");
const { Fault } = require("./words.js");

const WORDS = { code: "imports", types: "imports the types of", "on demand": "imports on demand", "source map": "has the source map" };

/** The specifier that `wanted` means: itself, or the one that ends with it. Faults: there is none, or there are several. */
function specifierOf(index, wanted) {
  const to = index.follow(wanted);
  if (index.modules.has(to)) return to;
  const all = [...index.modules.keys()];
  const whole = all.filter((it) => it.endsWith(`/${wanted}`));
  const found = whole.length > 0 ? whole : all.filter((it) => it.endsWith(wanted));
  if (found.length === 1) return found[0];
  if (found.length === 0) throw new Fault(`the graph has no module ${wanted}`);
  const some = found.slice(0, 10).map((it) => `\n  ${it}`).join("");
  throw new Fault(`${found.length} modules end with ${wanted}:${some}${found.length > 10 ? "\n  .." : ""}`);
}

/** The starts of a walk: what the roots and the configured imports lead to, each with the words that say so. */
function startsOf(index) {
  const roots = index.roots.map((it) => ({ to: index.follow(it), how: "a root" }));
  const configured = index.imports.flatMap((it) => index.edges(it).map((edge) => ({ to: edge.to, how: `configured at ${it.referrer}` })));
  return [...roots, ...configured];
}

/**
 * The chain to `specifier`, from its start: a list of `{ specifier, edge }`, where `edge` is the import that leads to the next one. `how`
 * says what its start is. Nothing where no import leads there.
 */
function chainTo(index, specifier) {
  const from = new Map();
  const queue = [];
  for (const { to, how } of startsOf(index)) {
    if (to === undefined || from.has(to)) continue;
    from.set(to, { how });
    queue.push(to);
  }
  for (const at of queue) {
    if (at === specifier) break;
    for (const edge of index.edges(index.modules.get(at) ?? {})) {
      if (edge.to === undefined || from.has(edge.to)) continue;
      from.set(edge.to, { at, edge });
      queue.push(edge.to);
    }
  }
  if (!from.has(specifier)) return undefined;
  const chain = [{ specifier }];
  for (let step = from.get(specifier); ; step = from.get(step.at)) {
    if (step.at === undefined) return { chain, how: step.how };
    chain.unshift({ specifier: step.at, edge: step.edge });
  }
}

/** The chain in words, a line a module and a line an import. */
function chainText({ chain, how }) {
  const lines = [`${chain[0].specifier} (${how})`];
  chain.slice(0, -1).forEach(({ edge }, place) => {
    const { line, character } = edge.span.start;
    lines.push(`  ${WORDS[edge.kind]} "${shown(edge.text)}" at ${line + 1}:${character + 1}`, shown(chain[place + 1].specifier));
  });
  return `${lines.join("\n")}\n`;
}

/** The graph of the chain's modules and imports alone. */
function chainGraph(graph, { chain }) {
  const names = new Map(chain.map(({ specifier, edge }) => [specifier, edge]));
  const modules = graph.modules.filter((it) => names.has(it.specifier)).map((it) => {
    const edge = names.get(it.specifier);
    const kept = { ...it, dependencies: (it.dependencies ?? []).filter((one) => one.specifier === edge?.text) };
    if (it.typesDependency?.specifier !== edge?.text) delete kept.typesDependency;
    if (edge?.kind !== "source map") delete kept.maybeSourceMapDependency;
    return kept;
  });
  return { ...graph, imports: [], roots: [chain[0].specifier], modules };
}

module.exports = { chainGraph, chainText, chainTo, specifierOf };
