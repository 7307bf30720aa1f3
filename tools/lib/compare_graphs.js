// Two graphs held side by side: module by module, edge by edge.
"use strict";
const { GraphIndex } = require("./graph.js");

/** What stands for a package of npm, whose modules a world doesn't have. */
const isStandIn = (one, other) => one.kind === "external" && other.kind === "npm";

/** The differences between the graph of graph_info and Deno's, a line each, and how much was compared. */
function compareGraphs(ours, theirs) {
  const [here, there] = [new GraphIndex(ours), new GraphIndex(theirs)];
  const lines = [];
  const counts = { modules: 0, edges: 0 };
  if (here.roots.join() !== there.roots.join()) lines.push(`roots: ${here.roots.join(", ")}; Deno has ${there.roots.join(", ")}`);
  for (const [specifier, other] of there.modules) {
    const one = here.modules.get(specifier);
    if (one === undefined) {
      lines.push(`${specifier}: only Deno has it`);
      continue;
    }
    counts.modules++;
    lines.push(...moduleDifferences(one, other));
    compareEdges(here, one, there, other, counts, lines);
  }
  for (const specifier of here.modules.keys()) {
    if (!there.modules.has(specifier)) lines.push(`${specifier}: Deno hasn't got it`);
  }
  return { lines, counts };
}

/** A module's imports: of each text what it leads to for code and for types, where it stands, and how it is imported. */
function edgesOf(index, module) {
  return (module.dependencies ?? []).map((it) => ({
    text: it.specifier,
    code: target(index, it.code),
    types: target(index, it.type),
    place: placeOf(it.code ?? it.type),
    dynamic: it.isDynamic ?? false,
    phase: it.phase,
    attribute: it.assertionType,
  }));
}

function target(index, resolution) {
  if (!resolution) return undefined;
  return resolution.error === undefined ? index.follow(resolution.specifier) : `error: ${resolution.error}`;
}

function placeOf(resolution) {
  const span = resolution?.span;
  if (span === undefined) return undefined;
  return [span.start, span.end].map((it) => `${it.line + 1}:${it.character + 1}`).join(" to ");
}

function moduleDifferences(one, other) {
  const told = ["kind", "mediaType", "size"].filter((it) => other[it] !== undefined && one[it] !== other[it]);
  const names = isStandIn(one, other) ? [] : told;
  const lines = names.map((it) => `${one.specifier}: ${it} ${one[it]}; Deno has ${other[it]}`);
  if ((one.error === undefined) !== (other.error === undefined)) {
    lines.push(`${one.specifier}: ${one.error ?? "no error"}; Deno has ${other.error ?? "no error"}`);
  }
  return lines;
}

function compareEdges(here, one, there, other, counts, lines) {
  const ours = new Map(edgesOf(here, one).map((it) => [it.text, it]));
  for (const edge of edgesOf(there, other)) {
    const mine = ours.get(edge.text);
    ours.delete(edge.text);
    counts.edges++;
    if (mine === undefined) lines.push(`${one.specifier} "${edge.text}": only Deno has it`);
    else lines.push(...edgeDifferences(one.specifier, mine, edge));
  }
  for (const text of ours.keys()) lines.push(`${one.specifier} "${text}": Deno hasn't got it`);
}

function edgeDifferences(specifier, mine, theirs) {
  const names = ["code", "types", "place", "dynamic", "phase", "attribute"].filter((it) => mine[it] !== theirs[it]);
  return names.map((it) => `${specifier} "${theirs.text}": ${it} ${mine[it] ?? "none"}; Deno has ${theirs[it] ?? "none"}`);
}

module.exports = { compareGraphs };
