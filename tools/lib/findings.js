// The findings of a policy, with the places of the imports that they speak of.
"use strict";
const { pathOfUrl } = require("./specifiers.js");
const { Fault } = require("./words.js");

const FINDING = /^([A-Za-z0-9_-]+) (\S+) (code|type|types|redirect) (\S+) via( \S+)+$/;

/** The resolutions of a module that an edge of this kind may come from. */
function resolutionsOf(module, kind) {
  if (kind === "types") return [module.typesDependency?.dependency];
  return (module.dependencies ?? []).map((it) => (kind === "code" ? it.code : it.type));
}

/** The file or the URL of a specifier. */
function fileOf(specifier) {
  return pathOfUrl(new URL(specifier)) ?? specifier;
}

/** The lines of a report of graph_tools policy over a printed graph. Faults: it is none; `name` names it. */
function linesOfReport(graph, report, name) {
  const lines = report.split("\n").filter((it) => it !== "");
  const last = lines.pop();
  if (last !== `findings ${lines.length}`) throw new Fault(`${name} is no report of graph_tools policy`);
  const modules = new Map(graph.modules.map((it) => [it.specifier, it]));
  return lines.flatMap((line) => {
    const found = FINDING.exec(line);
    if (found === null) throw new Fault(`${name} is no report of graph_tools policy: ${line}`);
    const [, id, from, kind, to] = found;
    const spans = resolutionsOf(modules.get(from) ?? {}, kind).filter((it) => it?.specifier === to).map((it) => it.span);
    const places = spans.map(({ start }) => `${fileOf(from)}:${start.line + 1}:${start.character + 1}`);
    return (places.length > 0 ? places : [fileOf(from)]).map((it) => `${it}: ${id}: ${kind} ${to}`);
  });
}

module.exports = { linesOfReport };
